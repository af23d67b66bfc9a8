//! Element types and the shape of a section.

use crate::room;
use crate::trouble::Trouble;
use mooringelm::Section;
use std::ffi::OsStr;

pub struct Type {
    pub name: &'static str,
    /// The type as numpy writes it.
    pub numpy: &'static str,
    pub octets: usize,
    pub signed: bool,
}

const TYPES: [Type; 6] = [
    kind("u8", "|u1", 1, false),
    kind("s8", "|i1", 1, true),
    kind("u16", "<u2", 2, false),
    kind("s16", "<i2", 2, true),
    kind("u32", "<u4", 4, false),
    kind("s32", "<i4", 4, true),
];

const fn kind(name: &'static str, numpy: &'static str, octets: usize, signed: bool) -> Type {
    Type {
        name,
        numpy,
        octets,
        signed,
    }
}

impl Type {
    /// The type of a section that the library accepted.
    pub fn of(section: &Section) -> &'static Type {
        &TYPES[section.element_type as usize - 1]
    }

    pub fn least(&self) -> i64 {
        match self.signed {
            true => -1 << (8 * self.octets - 1),
            false => 0,
        }
    }

    pub fn greatest(&self) -> i64 {
        self.least() + (1 << (8 * self.octets)) - 1
    }

    /// What masked pixels customarily hold.
    pub fn masked(&self) -> i64 {
        match self.signed {
            true => -1,
            false => self.greatest(),
        }
    }
}

/// The shape as numpy has it, slowest first; without dimensions it is flat.
pub fn shape(section: &Section) -> Vec<usize> {
    let given = section.dimensions.iter().rev().filter(|&&d| d > 0);
    let shape: Vec<usize> = given.map(|&d| d as usize).collect();
    match shape.is_empty() {
        true => vec![section.elements],
        false => shape,
    }
}

/// A shape as Python writes it.
pub fn tuple(shape: &[usize]) -> String {
    let parts: Vec<String> = shape.iter().map(usize::to_string).collect();
    match parts.len() {
        1 => format!("({},)", parts[0]),
        _ => format!("({})", parts.join(", ")),
    }
}

/// The pixels of a section, as many as it has.
pub fn unpack(name: &OsStr, file: &[u8], number: usize, of: &Section) -> Result<Vec<i64>, Trouble> {
    let mut pixels = room::pixels(of.elements)?;
    match mooringelm::unpack(file, number, &mut pixels) {
        Ok(_) => Ok(pixels),
        Err(refusal) => Err(Trouble::in_section(name, number, refusal)),
    }
}

/// Pixels as little-endian numbers of so many octets.
pub fn to_octets(pixels: &[i64], octets: usize, out: &mut Vec<u8>) {
    for pixel in pixels {
        out.extend_from_slice(&pixel.to_le_bytes()[..octets]);
    }
}

/// A number of one to eight octets, widened. What no i64 holds, and so no element type, becomes the greatest one.
pub fn from_octets(octets: &[u8], signed: bool, little: bool) -> i64 {
    let mut wide = [0u8; 8];
    for (at, &octet) in octets.iter().enumerate() {
        wide[if little { at } else { octets.len() - 1 - at }] = octet;
    }
    let number = u64::from_le_bytes(wide);
    let unused = 64 - 8 * octets.len() as u32;
    match signed {
        true => ((number << unused) as i64) >> unused,
        false => i64::try_from(number).unwrap_or(i64::MAX),
    }
}

#[cfg(test)]
mod tests {
    use super::*;

    #[test]
    fn numbers_are_widened() {
        assert_eq!(from_octets(&[0xff], true, true), -1);
        assert_eq!(from_octets(&[0xff], false, true), 255);
        assert_eq!(from_octets(&[0x01, 0x80], true, true), -32767);
        assert_eq!(from_octets(&[0x80, 0x01], true, false), -32767);
        assert_eq!(from_octets(&[0x80, 0x01], false, false), 32769);
        assert_eq!(from_octets(&[0xff; 8], false, true), i64::MAX);
        assert_eq!(from_octets(&[0xff; 8], true, false), -1);
    }

    #[test]
    fn types_end_where_they_should() {
        let ends: Vec<(i64, i64)> = TYPES.iter().map(|t| (t.least(), t.greatest())).collect();
        assert_eq!(ends[0], (0, 255));
        assert_eq!(ends[3], (-32768, 32767));
        assert_eq!(ends[4], (0, 4294967295));
        assert_eq!(ends[5], (-2147483648, 2147483647));
    }
}
