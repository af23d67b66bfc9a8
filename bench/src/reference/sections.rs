//! What the calls on one section say, and the peer in the table of their speed.

use super::pixels;
use super::reader::{self, Refusal, Section};
use std::borrow::Cow;

/// The section with that number; the first one has 1.
pub fn numbered<'s, 'f>(
    sections: &'s [Section<'f>],
    number: usize,
) -> Result<&'s Section<'f>, Refusal> {
    let index = number.checked_sub(1);
    index.and_then(|i| sections.get(i)).ok_or((12, 0))
}

/// Where the octets of a BINARY section start in the file, and how many they are.
pub fn octets(sections: &[Section], number: usize) -> Result<(usize, usize), Refusal> {
    let section = numbered(sections, number)?;
    if section.base64 {
        return Err((18, 0));
    }
    Ok((section.position, section.size))
}

/// A letter's number; none for blanks, line ends and `=`.
fn letter(byte: u8) -> Option<u32> {
    let number = match byte {
        b'A'..=b'Z' => byte - b'A',
        b'a'..=b'z' => byte - b'a' + 26,
        b'0'..=b'9' => byte - b'0' + 52,
        b'+' => 62,
        b'/' => 63,
        _ => return None,
    };
    Some(u32::from(number))
}

/// The octets of a BASE64 text that was found good.
fn decode(text: &[u8], size: usize) -> Vec<u8> {
    let mut octets = Vec::with_capacity(size);
    let (mut bits, mut held) = (0, 0);
    for number in text.iter().filter_map(|&byte| letter(byte)) {
        bits = bits << 6 | number;
        held += 6;
        if held >= 8 {
            held -= 8;
            octets.push((bits >> held) as u8);
        }
    }
    octets
}

/// The octets of a section of either encoding.
fn all_octets<'f>(file: &'f [u8], section: &Section) -> Cow<'f, [u8]> {
    if section.base64 {
        let text = &file[section.position..section.end - reader::CLOSING.len()];
        decode(text, section.size).into()
    } else {
        file[section.position..][..section.size].into()
    }
}

pub fn pixels(file: &[u8], sections: &[Section], number: usize) -> Result<Vec<i64>, Refusal> {
    let section = numbered(sections, number)?;
    pixels::unpack(
        section.element_type,
        section.byte_offset.into(),
        &all_octets(file, section),
        section.elements,
        usize::MAX,
    )
    .map_err(|_| (13, section.position as u32))
}

/// The peer in the table of speeds: the file read, the text decoded, the pixels unpacked into `out`.
pub fn unpack(file: &[u8], number: usize, out: &mut [i64]) -> Result<usize, u32> {
    let sections = reader::read(file).map_err(|refusal| refusal.0)?;
    let section = numbered(&sections, number).map_err(|refusal| refusal.0)?;
    let octets = all_octets(file, section);
    let unpack = if section.byte_offset {
        pixels::peer::unpack
    } else {
        pixels::peer::unpack_uncompressed
    };
    unpack(section.element_type, &octets, section.elements, out)
}
