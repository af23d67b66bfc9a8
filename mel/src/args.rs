//! The words of a command line. Options stand before, after and between the operands; `--` ends them.

use crate::trouble::{shown, Trouble};
use std::ffi::{OsStr, OsString};
use std::os::unix::ffi::OsStrExt;

pub struct Opt {
    pub long: &'static str,
    pub short: Option<char>,
    /// What the value is called; none for a flag.
    pub value: Option<&'static str>,
}

impl Opt {
    pub const fn flag(long: &'static str, short: Option<char>) -> Opt {
        Opt {
            long,
            short,
            value: None,
        }
    }

    pub const fn valued(long: &'static str, short: Option<char>, value: &'static str) -> Opt {
        Opt {
            long,
            short,
            value: Some(value),
        }
    }
}

pub struct Command {
    pub name: &'static str,
    /// The operands that are needed, by name; `more` allows further ones.
    pub operands: &'static [&'static str],
    pub more: bool,
    pub options: &'static [Opt],
    pub help: &'static str,
    pub run: fn(&Args) -> Result<u8, Trouble>,
}

pub struct Args {
    command: &'static Command,
    pub operands: Vec<OsString>,
    given: Vec<(&'static str, OsString)>,
}

impl Args {
    pub fn flag(&self, long: &str) -> bool {
        self.value(long).is_some()
    }

    pub fn value(&self, long: &str) -> Option<&OsStr> {
        let found = self.given.iter().find(|(name, _)| *name == long)?;
        Some(&found.1)
    }

    pub fn usage(&self, what: &str) -> Trouble {
        usage(self.command, what)
    }

    /// A whole number that an option gives.
    pub fn whole(&self, long: &str) -> Result<Option<i64>, Trouble> {
        let Some(word) = self.value(long) else {
            return Ok(None);
        };
        match word.to_str().and_then(|word| word.parse().ok()) {
            Some(number) => Ok(Some(number)),
            None => Err(self.usage(&format!(
                "--{long} takes a whole number, not {}",
                shown(word)
            ))),
        }
    }

    /// The operand that is a section number.
    pub fn section(&self) -> Result<usize, Trouble> {
        let word = &self.operands[1];
        match word.to_str().and_then(|word| word.parse().ok()) {
            Some(number) => Ok(number),
            None => Err(self.usage(&format!(
                "SECTION is a number from 1 on, as mel list shows it, not {}",
                shown(word)
            ))),
        }
    }
}

fn usage(command: &Command, what: &str) -> Trouble {
    let name = command.name;
    Trouble::Usage(format!(
        "mel {name}: {what}; mel {name} --help shows how it is called"
    ))
}

struct Parser<'a, I> {
    args: Args,
    rest: &'a mut I,
}

impl<I: Iterator<Item = OsString>> Parser<'_, I> {
    /// Notes an option with the value that stands in its own word, or in the next.
    fn note(&mut self, option: &'static Opt, own: Option<&OsStr>) -> Result<(), Trouble> {
        let long = option.long;
        if self.args.flag(long) {
            return Err(self.args.usage(&format!("--{long} is given twice")));
        }
        let value = match (option.value, own) {
            (None, None) => OsString::new(),
            (None, Some(_)) => return Err(self.args.usage(&format!("--{long} takes no value"))),
            (Some(_), Some(own)) => own.to_os_string(),
            (Some(value), None) => match self.rest.next() {
                Some(next) => next,
                None => {
                    return Err(self
                        .args
                        .usage(&format!("--{long} {value}: {value} is missing")))
                }
            },
        };
        self.args.given.push((long, value));
        Ok(())
    }

    fn unknown(&self, word: &OsStr) -> Trouble {
        self.args
            .usage(&format!("there is no option {}", shown(word)))
    }

    fn long(&mut self, word: &OsStr) -> Result<(), Trouble> {
        let text = &word.as_bytes()[2..];
        let (name, own) = match text.iter().position(|&byte| byte == b'=') {
            Some(at) => (&text[..at], Some(OsStr::from_bytes(&text[at + 1..]))),
            None => (text, None),
        };
        let options = self.args.command.options;
        let option = options.iter().find(|o| o.long.as_bytes() == name);
        self.note(option.ok_or_else(|| self.unknown(word))?, own)
    }

    /// One letter or several; what follows the letter of an option with a value is its value.
    fn short(&mut self, word: &OsStr) -> Result<(), Trouble> {
        let mut text = &word.as_bytes()[1..];
        while let Some((&letter, rest)) = text.split_first() {
            let options = self.args.command.options;
            let option = options.iter().find(|o| o.short == Some(letter as char));
            let option = option.ok_or_else(|| self.unknown(word))?;
            text = rest;
            if option.value.is_some() && !rest.is_empty() {
                text = &[];
                self.note(option, Some(OsStr::from_bytes(rest)))?;
            } else {
                self.note(option, None)?;
            }
        }
        Ok(())
    }
}

/// The words of a command; none where help is asked for.
pub fn parse(
    command: &'static Command,
    mut words: impl Iterator<Item = OsString>,
) -> Result<Option<Args>, Trouble> {
    let args = Args {
        command,
        operands: Vec::new(),
        given: Vec::new(),
    };
    let mut parser = Parser {
        args,
        rest: &mut words,
    };
    while let Some(word) = parser.rest.next() {
        match word.as_bytes() {
            b"--help" | b"-h" => return Ok(None),
            b"--" => break,
            [b'-', b'-', ..] => parser.long(&word)?,
            [b'-', _, ..] => parser.short(&word)?,
            _ => parser.args.operands.push(word),
        }
    }
    let mut args = parser.args;
    args.operands.extend(words);
    let needed = command.operands;
    if let Some(missing) = needed.get(args.operands.len()) {
        return Err(args.usage(&format!("{missing} is missing")));
    }
    if !command.more && args.operands.len() > needed.len() {
        let extra = shown(&args.operands[needed.len()]);
        return Err(args.usage(&format!("{extra} is one word too many")));
    }
    Ok(Some(args))
}
