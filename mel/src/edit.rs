//! An edit: in place in one locked step, or from one file to another.

use crate::args::Args;
use crate::disk::{self, Held};
use crate::input;
use crate::output;
use crate::progress;
use crate::room;
use crate::trouble::{shown, Trouble};
use mooringelm::{replaced_limit, Refusal, Section};
use std::ffi::OsStr;
use std::fs;
use std::io::Write;
use std::os::unix::fs::MetadataExt;

/// The new frame, whether it is the one that is there, and what is said of it, once with what was done and once with
/// what would be.
pub struct New {
    pub frame: Vec<i64>,
    pub same: bool,
    pub done: String,
    pub would: String,
}

/// The copy of a file that the library made, and whether an edit in place has something to write.
struct Copy {
    bytes: Vec<u8>,
    before: usize,
    same: bool,
    new: New,
}

/// Makes the new frame from the file and what the headers of its section say.
pub type Make<'a> = dyn Fn(&[u8], usize, &Section) -> Result<New, Trouble> + 'a;

pub fn run(args: &Args, make: &Make) -> Result<u8, Trouble> {
    let (name, section) = (&args.operands[0], args.section()?);
    let (wait, dry) = (disk::wait(args)?, args.flag("dry-run"));
    let out = args.value("output").filter(|out| !same_file(name, out));
    if name == "-" && out.is_none() && !dry {
        return Err(args.usage("standard input cannot be edited in place: name a file with -o OUT"));
    }
    let copied = |file: &[u8]| copy(name, file, section, make);
    if dry {
        let file = match name == "-" || out.is_some() {
            true => input::cbf(name)?,
            false => input::open_cbf(name, &disk::open(name)?.1)?,
        };
        return would(name, section, &copied(&file)?);
    }
    let made = match out {
        None => {
            let held = Held::take(name, wait)?;
            let (file, seen) = held.read()?;
            let made = copied(&file)?;
            if !made.same {
                held.put(&made.bytes, Some(&seen))?;
            }
            made
        }
        Some(out) => {
            let made = copied(&input::cbf(name)?)?;
            match out == "-" {
                true => output::bytes(&made.bytes)?,
                false => disk::write(out, &made.bytes, wait)?,
            }
            made
        }
    };
    done(name, section, out, &made)
}

/// Whether OUT is FILE by another name, which makes it an edit in place.
fn same_file(name: &OsStr, out: &OsStr) -> bool {
    let identity = |name| fs::metadata(name).map(|of| (of.dev(), of.ino()));
    name != "-"
        && out != "-"
        && identity(name).is_ok_and(|own| identity(out).is_ok_and(|o| o == own))
}

fn copy(name: &OsStr, file: &[u8], number: usize, make: &Make) -> Result<Copy, Trouble> {
    progress::stage(&format!("editing {}", shown(name)), 0, 0);
    let refused = |refusal: Refusal| Trouble::refusal(name, refusal);
    let section = mooringelm::section(file, number).map_err(refused)?;
    // The library says 18 itself, but only after a frame was made.
    if section.encoding != 0 {
        mooringelm::octets(file, number).map_err(refused)?;
    }
    let new = make(file, number, &section)?;
    let mut bytes = room::bytes(replaced_limit(file.len(), new.frame.len()))?;
    let length = mooringelm::replace(file, number, &new.frame, &mut bytes).map_err(refused)?;
    bytes.truncate(length);
    Ok(Copy {
        before: file.len(),
        same: new.same || bytes == file,
        bytes,
        new,
    })
}

fn would(name: &OsStr, section: usize, made: &Copy) -> Result<u8, Trouble> {
    let (name, would) = (shown(name), &made.new.would);
    let (before, after) = (made.before, made.bytes.len());
    let change = match made.same {
        true => "no pixel would change".to_string(),
        false => format!("{before} bytes would become {after}"),
    };
    output::text(&format!(
        "{name}: section {section}: {would}; {change}; nothing is written\n"
    ))?;
    Ok(0)
}

/// Says what was done, on standard error where the copy went to standard output or to a device, which may be the same.
fn done(name: &OsStr, section: usize, out: Option<&OsStr>, made: &Copy) -> Result<u8, Trouble> {
    let (name, done) = (shown(name), &made.new.done);
    let line = format!("{name}: section {section}: {done}");
    match out {
        None if made.same => {
            output::text(&format!("{line}; no pixel changes, nothing is written\n"))?
        }
        None => output::text(&format!("{line}\n"))?,
        Some(out) if out == "-" || !fs::metadata(out).is_ok_and(|of| of.is_file()) => {
            progress::end();
            let _ = writeln!(std::io::stderr(), "{line}");
        }
        Some(out) => output::text(&format!("{line}; written to {}\n", shown(out)))?,
    }
    Ok(0)
}
