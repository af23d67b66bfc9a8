//! mel unpack

use crate::args::Args;
use crate::frame::{self, to_octets, Type};
use crate::input;
use crate::npy;
use crate::output;
use crate::pgm;
use crate::progress;
use crate::room;
use crate::trouble::{shown, Trouble};
use std::ffi::OsStr;
use std::io::Write;

#[derive(Clone, Copy, PartialEq)]
enum Form {
    Npy,
    Raw,
    Text,
    Pgm,
}

fn form(args: &Args) -> Result<Form, Trouble> {
    let Some(word) = args.value("as") else {
        return Ok(Form::Npy);
    };
    match word.to_str() {
        Some("npy") => Ok(Form::Npy),
        Some("raw") => Ok(Form::Raw),
        Some("text") => Ok(Form::Text),
        Some("pgm") => Ok(Form::Pgm),
        _ => Err(args.usage(&format!(
            "--as takes npy, raw, text or pgm, not {}",
            shown(word)
        ))),
    }
}

pub fn run(args: &Args) -> Result<u8, Trouble> {
    let (name, number, form) = (&args.operands[0], args.section()?, form(args)?);
    let out = match form {
        Form::Text => args.value("output").filter(|out| *out != "-"),
        _ => output::place(args, ", or take --as text")?,
    };
    let answer = unpacked(name, number, form)?;
    output::put(out, &answer, args)?;
    Ok(0)
}

fn unpacked(name: &OsStr, number: usize, form: Form) -> Result<Vec<u8>, Trouble> {
    let file = input::cbf(name)?;
    progress::stage(&format!("unpacking {}", shown(name)), 0, 0);
    let section =
        mooringelm::section(&file, number).map_err(|refusal| Trouble::refusal(name, refusal))?;
    let pixels = frame::unpack(name, &file, number, &section)?;
    drop(file);
    let kind = Type::of(&section);
    let mut answer = match form {
        Form::Pgm => return pgm::image(name, number, &section, &pixels),
        Form::Text => return text(&pixels),
        Form::Npy => npy::head(&section),
        Form::Raw => Vec::new(),
    };
    room::more(&mut answer, pixels.len() * kind.octets)?;
    to_octets(&pixels, kind.octets, &mut answer);
    Ok(answer)
}

/// A line for each pixel.
fn text(pixels: &[i64]) -> Result<Vec<u8>, Trouble> {
    let mut text = Vec::new();
    for part in pixels.chunks(65_536) {
        // No pixel takes more than a sign, ten digits and a line end.
        room::more(&mut text, 12 * part.len())?;
        for pixel in part {
            writeln!(text, "{pixel}").expect("memory can be written");
        }
    }
    Ok(text)
}
