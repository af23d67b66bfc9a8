//! mel list

use crate::args::Args;
use crate::frame::{shape, Type};
use crate::input;
use crate::output;
use crate::room;
use crate::trouble::Trouble;
use mooringelm::{Refusal, Section, LISTING_LIMIT};
use std::ffi::OsStr;
use std::os::unix::ffi::OsStrExt;

pub fn run(args: &Args) -> Result<u8, Trouble> {
    if args.flag("json") {
        return json(args);
    }
    let several = args.operands.len() > 1;
    each(args, |name| {
        let listing = listing(name)?;
        let mut text = Vec::new();
        for line in listing.split_inclusive(|&byte| byte == b'\n') {
            if several {
                text.extend_from_slice(name.as_bytes());
                text.extend_from_slice(b": ");
            }
            text.extend_from_slice(line);
        }
        output::bytes(&text)
    })
}

/// Does one thing with each file, goes on after a refused one, and gives the worst status.
pub fn each(
    args: &Args,
    mut one: impl FnMut(&OsStr) -> Result<(), Trouble>,
) -> Result<u8, Trouble> {
    let mut worst = 0;
    for name in &args.operands {
        match one(name) {
            Ok(()) => {}
            Err(Trouble::Closed) => return Ok(worst),
            Err(trouble) => worst = worst.max(trouble.tell()),
        }
    }
    Ok(worst)
}

fn listing(name: &OsStr) -> Result<Vec<u8>, Trouble> {
    let file = input::cbf(name)?;
    let mut out = room::bytes(LISTING_LIMIT)?;
    let length =
        mooringelm::listing(&file, &mut out).map_err(|refusal| Trouble::refusal(name, refusal))?;
    out.truncate(length);
    Ok(out)
}

fn json(args: &Args) -> Result<u8, Trouble> {
    let mut before = "[";
    let worst = each(args, |name| {
        let file = input::cbf(name)?;
        let refused = |refusal: Refusal| Trouble::refusal(name, refusal);
        let mut text = String::new();
        for number in 1..=mooringelm::count(&file).map_err(refused)? {
            let section = mooringelm::section(&file, number).map_err(refused)?;
            text.push_str(before);
            text.push_str(&object(name, &file, number, &section));
            before = ",";
        }
        output::text(&text)
    })?;
    let end = if before == "[" { "[]\n" } else { "\n]\n" };
    match output::text(end) {
        Err(Trouble::Closed) => Ok(worst),
        done => done.map(|()| worst),
    }
}

fn object(name: &OsStr, file: &[u8], number: usize, section: &Section) -> String {
    let name = string(&name.to_string_lossy());
    let block = string(&String::from_utf8_lossy(&file[section.name.clone()]));
    let (position, size, elements) = (section.position, section.size, section.elements);
    let compression = ["none", "byte_offset"][section.compression as usize];
    let encoding = ["BINARY", "BASE64"][section.encoding as usize];
    let kind = Type::of(section).name;
    let id = match section.id {
        0 => "null".to_string(),
        id => id.to_string(),
    };
    let given = section.dimensions.iter().filter(|&&d| d > 0);
    let dimensions: Vec<u32> = given.copied().collect();
    let shape = shape(section);
    format!(
        "\n{{\"file\": {name}, \"section\": {number}, \"position\": {position}, \"size\": {size}, \
         \"elements\": {elements}, \"compression\": \"{compression}\", \"type\": \"{kind}\", \
         \"encoding\": \"{encoding}\", \"block\": {block}, \"id\": {id}, \"dimensions\": {dimensions:?}, \
         \"shape\": {shape:?}}}"
    )
}

/// A text as JSON writes it, in ASCII alone.
fn string(text: &str) -> String {
    let mut out = String::from("\"");
    for unit in text.encode_utf16() {
        match unit {
            0x22 | 0x5c => out.extend(['\\', unit as u8 as char]),
            0x20..=0x7e => out.push(unit as u8 as char),
            _ => out.push_str(&format!("\\u{unit:04x}")),
        }
    }
    out.push('"');
    out
}

#[cfg(test)]
mod tests {
    #[test]
    fn strings_are_json() {
        assert_eq!(
            super::string("a\"b\\c\n\u{e9}\u{1f600}\u{7f}"),
            "\"a\\\"b\\\\c\\u000a\\u00e9\\ud83d\\ude00\\u007f\""
        );
    }
}
