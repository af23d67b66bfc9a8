//! mel check

use crate::args::Args;
use crate::input;
use crate::list::each;
use crate::output;
use crate::progress;
use crate::room;
use crate::trouble::{shown, Trouble};
use mooringelm::Refusal;
use std::ffi::OsStr;

pub fn run(args: &Args) -> Result<u8, Trouble> {
    let mut bad = false;
    let worst = each(args, |name| {
        let found = check(name)?;
        bad |= found.bad > 0;
        if !args.flag("verbose") {
            return Ok(());
        }
        let (name, sections, pixels) = (shown(name), found.sections, found.pixels);
        output::text(&match found.bad {
            0 => format!("{name}: good: {sections} sections, {pixels} pixels\n"),
            bad => format!("{name}: bad: {bad} of {sections} sections do not unpack\n"),
        })
    })?;
    Ok(worst.max(bad as u8))
}

struct Found {
    sections: usize,
    pixels: usize,
    bad: usize,
}

/// Reads a file and unpacks every section. Each that does not unpack gets its line.
fn check(name: &OsStr) -> Result<Found, Trouble> {
    let file = input::cbf(name)?;
    let refused = |refusal: Refusal| Trouble::refusal(name, refusal);
    let sections = mooringelm::count(&file).map_err(refused)?;
    let mut found = Found {
        sections,
        pixels: 0,
        bad: 0,
    };
    let what = format!("checking {}", shown(name));
    let mut pixels = Vec::new();
    for number in 1..=sections {
        progress::stage(&what, number - 1, sections);
        let elements = mooringelm::section(&file, number)
            .map_err(refused)?
            .elements;
        if pixels.len() < elements {
            pixels = room::pixels(elements)?;
        }
        match mooringelm::unpack(&file, number, &mut pixels) {
            Ok(count) => found.pixels += count,
            Err(refusal) => {
                Trouble::in_section(name, number, refusal).tell();
                found.bad += 1;
            }
        }
    }
    Ok(found)
}
