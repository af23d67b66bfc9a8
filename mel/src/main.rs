// SPDX-License-Identifier: Apache-2.0
//! mel: lists, checks, unpacks and edits Crystallographic Binary Files through the proved library. Document
//! docs/ON-DISK.md says how it edits a file in place.

mod args;
mod catalogue;
mod check;
mod disk;
mod edit;
mod explain;
mod frame;
mod help;
mod input;
mod list;
mod mask;
mod npy;
mod output;
mod pgm;
mod progress;
mod replace;
mod room;
mod sys;
mod temporary;
mod trouble;
mod unpack;

use args::{Command, Opt};
use std::ffi::OsString;
use std::process::ExitCode;
use trouble::Trouble;

const OUTPUT: Opt = Opt::valued("output", Some('o'), "OUT");
const DRY: Opt = Opt::flag("dry-run", Some('n'));
const WAIT: Opt = Opt::valued("wait", None, "S");

const COMMANDS: &[Command] = &[
    Command {
        name: "list",
        operands: &["FILE"],
        more: true,
        options: &[Opt::flag("json", None)],
        help: help::LIST,
        run: list::run,
    },
    Command {
        name: "check",
        operands: &["FILE"],
        more: true,
        options: &[Opt::flag("verbose", Some('v'))],
        help: help::CHECK,
        run: check::run,
    },
    Command {
        name: "unpack",
        operands: &["FILE", "SECTION"],
        more: false,
        options: &[OUTPUT, WAIT, Opt::valued("as", None, "FORM")],
        help: help::UNPACK,
        run: unpack::run,
    },
    Command {
        name: "replace",
        operands: &["FILE", "SECTION", "FRAME"],
        more: false,
        options: &[OUTPUT, DRY, WAIT, Opt::flag("raw", None)],
        help: help::REPLACE,
        run: replace::run,
    },
    Command {
        name: "mask",
        operands: &["FILE", "SECTION"],
        more: false,
        options: &[
            OUTPUT,
            DRY,
            WAIT,
            Opt::valued("above", None, "N"),
            Opt::valued("mask", None, "M.npy"),
            Opt::valued("value", None, "V"),
        ],
        help: help::MASK,
        run: mask::run,
    },
    Command {
        name: "catalogue",
        operands: &["FILE"],
        more: false,
        options: &[OUTPUT, WAIT],
        help: help::CATALOGUE,
        run: catalogue::run,
    },
    Command {
        name: "explain",
        operands: &[],
        more: true,
        options: &[],
        help: help::EXPLAIN,
        run: explain::run,
    },
];

fn run(mut words: impl Iterator<Item = OsString>) -> Result<u8, Trouble> {
    let first = words.next().ok_or_else(|| {
        Trouble::Usage("mel: no command is given; mel --help shows them".to_string())
    })?;
    match first.to_str() {
        Some("--help" | "-h") => return output::text(help::MEL).map(|()| 0),
        Some("--version") => {
            return output::text(&format!("mel {}\n", mooringelm::VERSION)).map(|()| 0)
        }
        _ => {}
    }
    let command = COMMANDS.iter().find(|c| first == c.name).ok_or_else(|| {
        let word = trouble::shown(&first);
        Trouble::Usage(format!(
            "mel: there is no command {word}; mel --help shows them"
        ))
    })?;
    match args::parse(command, words)? {
        Some(args) => (command.run)(&args),
        None => output::text(command.help).map(|()| 0),
    }
}

fn main() -> ExitCode {
    sys::ignore_file_size_signal();
    let status = match run(std::env::args_os().skip(1)) {
        Ok(status) => status,
        Err(trouble) => trouble.tell(),
    };
    progress::end();
    ExitCode::from(status)
}
