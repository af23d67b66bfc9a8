//! Answers go to standard output, or to the file that -o names.

use crate::args::Args;
use crate::disk;
use crate::progress;
use crate::trouble::{because, Trouble};
use std::ffi::OsStr;
use std::io::{self, IsTerminal, Write};

/// Writes to standard output. Where nobody reads it any more, the command ends quietly.
pub fn bytes(bytes: &[u8]) -> Result<(), Trouble> {
    progress::end();
    let mut out = io::stdout().lock();
    let done = out.write_all(bytes).and_then(|()| out.flush());
    done.map_err(|error| match error.kind() {
        io::ErrorKind::BrokenPipe => Trouble::Closed,
        _ => Trouble::System(format!(
            "mel: standard output cannot be written: {}",
            because(&error)
        )),
    })
}

pub fn text(text: &str) -> Result<(), Trouble> {
    bytes(text.as_bytes())
}

/// Where an answer goes that is no text: fails where that is a terminal.
pub fn place<'a>(args: &'a Args, other: &str) -> Result<Option<&'a OsStr>, Trouble> {
    let out = args.value("output").filter(|out| *out != "-");
    if out.is_none() && io::stdout().is_terminal() {
        return Err(args.usage(&format!(
            "the answer is no text and standard output is a terminal: name a file with -o OUT{other}"
        )));
    }
    Ok(out)
}

/// Writes an answer to the file, or to standard output.
pub fn put(out: Option<&OsStr>, answer: &[u8], args: &Args) -> Result<(), Trouble> {
    match out {
        Some(out) => disk::write(out, answer, disk::wait(args)?),
        None => bytes(answer),
    }
}
