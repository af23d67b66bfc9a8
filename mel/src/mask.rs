//! mel mask

use crate::args::Args;
use crate::edit::{self, New};
use crate::frame::{self, Type};
use crate::input;
use crate::npy::{self, Array};
use crate::trouble::{shown, Trouble};
use mooringelm::Section;
use std::ffi::OsStr;

/// Which pixels are masked.
enum Which<'a> {
    Above(i64),
    Nonzero(&'a OsStr, Array),
}

pub fn run(args: &Args) -> Result<u8, Trouble> {
    let which = match (args.whole("above")?, args.value("mask")) {
        (Some(above), None) => Which::Above(above),
        (None, Some(name)) => {
            if name == "-" && args.operands[0] == "-" {
                return Err(args.usage("FILE and the mask cannot both be standard input"));
            }
            Which::Nonzero(name, npy::read(name, &input::other(name)?, true)?)
        }
        _ => return Err(args.usage("one of --above N and --mask M.npy is needed")),
    };
    let value = args.whole("value")?;
    let name = &args.operands[0];
    edit::run(args, &|file, number, section| {
        let value = checked(name, value, number, section)?;
        let mut frame = frame::unpack(name, file, number, section)?;
        let (masked, changed) = match &which {
            Which::Above(above) => put(&mut frame, value, |_, pixel| pixel > *above),
            Which::Nonzero(name, mask) => {
                npy::fits(name, mask, number, section)?;
                as_many(name, mask, number, section)?;
                put(&mut frame, value, |at, _| mask.values[at] != 0)
            }
        };
        let of = format!("{masked} of {} pixels", frame.len());
        Ok(New {
            frame,
            same: changed == 0,
            done: format!("{of} masked with {value}"),
            would: format!("{of} would be masked with {value}"),
        })
    })
}

/// Sets the pixels that are chosen, and counts them, and those of them that had another value.
fn put(frame: &mut [i64], value: i64, chosen: impl Fn(usize, i64) -> bool) -> (usize, usize) {
    let (mut masked, mut changed) = (0, 0);
    for (at, pixel) in frame.iter_mut().enumerate() {
        if chosen(at, *pixel) {
            masked += 1;
            changed += usize::from(*pixel != value);
            *pixel = value;
        }
    }
    (masked, changed)
}

/// The value for masked pixels: the customary one of the type, or a given one that is in the type.
fn checked(
    name: &OsStr,
    value: Option<i64>,
    number: usize,
    section: &Section,
) -> Result<i64, Trouble> {
    let kind = Type::of(section);
    let value = value.unwrap_or(kind.masked());
    if (kind.least()..=kind.greatest()).contains(&value) {
        return Ok(value);
    }
    let (name, least, greatest) = (shown(name), kind.least(), kind.greatest());
    Err(Trouble::Refused(format!(
        "{name}: section {number} is {}, which has no {value}; take a --value from {least} to {greatest}",
        kind.name
    )))
}

fn as_many(name: &OsStr, mask: &Array, number: usize, section: &Section) -> Result<(), Trouble> {
    let (had, wanted) = (mask.values.len(), section.elements);
    if had == wanted {
        return Ok(());
    }
    let name = shown(name);
    Err(Trouble::Refused(format!(
        "{name}: it has {had} values and section {number} has {wanted} pixels; make a mask of its shape"
    )))
}
