//! mel replace

use crate::args::Args;
use crate::edit::{self, New};
use crate::frame::{self, from_octets, tuple, Type};
use crate::input;
use crate::npy::{self, Array};
use crate::trouble::{shown, Trouble};
use mooringelm::Section;
use std::ffi::OsStr;

/// What is to be put in, read before any lock is taken.
enum Frame {
    Npy(Array),
    Raw(Vec<u8>),
}

pub fn run(args: &Args) -> Result<u8, Trouble> {
    let (file, name) = (&args.operands[0], &args.operands[2]);
    if file == "-" && name == "-" {
        return Err(args.usage("FILE and FRAME cannot both be standard input"));
    }
    args.section()?;
    let bytes = input::other(name)?;
    let given = match args.flag("raw") {
        true => Frame::Raw(bytes),
        false => Frame::Npy(npy::read(name, &bytes, false)?),
    };
    edit::run(args, &|_, number, section| {
        let frame = match &given {
            Frame::Npy(array) => {
                npy::fits(name, array, number, section)?;
                array.values.clone()
            }
            Frame::Raw(bytes) => raw(name, bytes, section)?,
        };
        let (kind, shape) = (Type::of(section).name, tuple(&frame::shape(section)));
        let what = format!("{} pixels, {kind} {shape}", frame.len());
        Ok(New {
            frame,
            same: false,
            done: format!("replaced by {what}"),
            would: format!("would be replaced by {what}"),
        })
    })
}

/// Little-endian numbers of the section's type.
fn raw(name: &OsStr, bytes: &[u8], section: &Section) -> Result<Vec<i64>, Trouble> {
    let kind = Type::of(section);
    if bytes.len() % kind.octets != 0 {
        let (name, length, octets) = (shown(name), bytes.len(), kind.octets);
        return Err(Trouble::Refused(format!(
            "{name}: {length} bytes are no whole number of {} pixels; save {octets} bytes for each",
            kind.name
        )));
    }
    let pixels = bytes.chunks_exact(kind.octets);
    Ok(pixels
        .map(|one| from_octets(one, kind.signed, true))
        .collect())
}
