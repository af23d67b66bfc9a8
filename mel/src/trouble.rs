//! What ends a command early, with its status and its line on standard error.

use crate::progress;
use mooringelm::Refusal;
use std::ffi::OsStr;
use std::io::{self, Write};

#[derive(Debug)]
pub enum Trouble {
    /// A file or a frame was refused: status 1.
    Refused(String),
    /// The command line is wrong: status 2.
    Usage(String),
    /// The system failed: status 3.
    System(String),
    /// Another editor holds the file: status 4.
    Busy(String),
    /// Nobody reads standard output any more: what was done so far decides.
    Closed,
}

impl Trouble {
    pub fn refusal(name: &OsStr, refusal: Refusal) -> Trouble {
        Trouble::Refused(format!("{}: {refusal}", shown(name)))
    }

    /// A refusal of what one section holds; the line names the section for 13, which has only a place.
    pub fn in_section(name: &OsStr, section: usize, refusal: Refusal) -> Trouble {
        match refusal.number {
            13 => Trouble::Refused(format!("{}: {refusal} (section {section})", shown(name))),
            _ => Trouble::refusal(name, refusal),
        }
    }

    pub fn system(name: &OsStr, what: &str, error: &io::Error) -> Trouble {
        Trouble::System(format!("{}: {what}: {}", shown(name), because(error)))
    }

    /// Writes the line and gives the status.
    pub fn tell(&self) -> u8 {
        let (status, line) = match self {
            Trouble::Refused(line) => (1, line),
            Trouble::Usage(line) => (2, line),
            Trouble::System(line) => (3, line),
            Trouble::Busy(line) => (4, line),
            Trouble::Closed => return 0,
        };
        progress::end();
        let _ = writeln!(io::stderr(), "{line}");
        status
    }
}

/// A name or word from outside for a message of one line: control characters are shown as question marks.
pub fn shown(name: &OsStr) -> String {
    let text = name.to_string_lossy();
    text.chars()
        .map(|c| if c.is_control() { '?' } else { c })
        .collect()
}

/// The system's own words for an error, without the number that Rust adds.
pub fn because(error: &io::Error) -> String {
    let text = error.to_string();
    match text.find(" (os error") {
        Some(end) => text[..end].to_string(),
        None => text,
    }
}
