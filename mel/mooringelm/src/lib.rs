// SPDX-License-Identifier: Apache-2.0
//! The proved library for Crystallographic Binary Files, as safe functions: slices stand for the pointers and lengths
//! that include/mooringelm.h asks for. Sections are numbered from 1.

pub mod raw;

use std::fmt;
use std::ops::Range;

include!(concat!(env!("OUT_DIR"), "/header.rs"));

/// The most that a file has in bytes, a section in pixels, a listing and a catalogue in bytes.
pub const FILE_LIMIT: usize = 1_073_741_824;
pub const PIXEL_LIMIT: usize = 67_108_864;
pub const LISTING_LIMIT: usize = 92_672;
pub const CATALOGUE_LIMIT: usize = 32_776;

/// Why a call was refused: the number, the place in the file, and the item (0 in all of today's calls).
#[derive(Clone, Copy, Debug, PartialEq, Eq)]
pub struct Refusal {
    pub number: u32,
    pub place: u32,
    pub item: u32,
}

impl fmt::Display for Refusal {
    fn fmt(&self, f: &mut fmt::Formatter<'_>) -> fmt::Result {
        let Refusal { number, place, .. } = *self;
        write!(f, "refused {number} at {place}: {}", refusal_text(number))
    }
}

impl std::error::Error for Refusal {}

/// The length of the answer, or a refusal, which leaves all lent memory as it was.
pub type Answer = Result<usize, Refusal>;

/// What a section's headers say and where it lies.
#[derive(Clone, Debug, PartialEq, Eq)]
pub struct Section {
    /// The span, from the opening boundary's first hyphen up to, not including, the byte after the closing boundary.
    pub span: Range<usize>,
    /// The place of the first octet (BASE64: of the text).
    pub position: usize,
    /// How many octets and elements there are.
    pub size: usize,
    pub elements: usize,
    /// The ID, 0 where it is absent.
    pub id: u32,
    /// The dimensions, fastest first, 0 for those that are absent.
    pub dimensions: [u32; 3],
    /// Where the name of the data block stands in the file.
    pub name: Range<usize>,
    /// 0 none, 1 byte offset.
    pub compression: u8,
    /// 1 u8, 2 s8, 3 u16, 4 s16, 5 u32, 6 s32.
    pub element_type: u8,
    /// 0 BINARY, 1 BASE64.
    pub encoding: u8,
}

fn refused(number: u32, place: u32, item: u32) -> Result<(), Refusal> {
    match number {
        0 => Ok(()),
        _ => Err(Refusal {
            number,
            place,
            item,
        }),
    }
}

fn answer(a: raw::Answer) -> Answer {
    refused(a.refusal, a.place, a.item)?;
    Ok(a.length as usize)
}

// In each function below the call is sound since a slice is valid for its length and aligned, and what is lent for
// writing is borrowed alone.

/// How many sections the file has.
pub fn count(file: &[u8]) -> Answer {
    answer(unsafe { raw::mel_count(file.as_ptr(), file.len()) })
}

/// What the headers of a section say, and where it lies.
pub fn section(file: &[u8], section: usize) -> Result<Section, Refusal> {
    let a = unsafe { raw::mel_section(file.as_ptr(), file.len(), section) };
    refused(a.refusal, a.place, a.item)?;
    let name = a.name_start as usize;
    Ok(Section {
        span: a.boundary as usize..a.span_end as usize,
        position: a.position as usize,
        size: a.size as usize,
        elements: a.elements as usize,
        id: a.id,
        dimensions: [a.fastest, a.second, a.third],
        name: name..name + a.name_length as usize,
        compression: a.compression,
        element_type: a.element_type,
        encoding: a.encoding,
    })
}

/// The octets of a BINARY section, a part of the file.
pub fn octets(file: &[u8], section: usize) -> Result<&[u8], Refusal> {
    let a = unsafe { raw::mel_octets(file.as_ptr(), file.len(), section) };
    refused(a.refusal, a.place, a.item)?;
    Ok(&file[a.start as usize..][..a.length as usize])
}

/// The pixels of a section; the answer is how many they are.
pub fn unpack(file: &[u8], section: usize, pixels: &mut [i64]) -> Answer {
    let (to, room) = (pixels.as_mut_ptr(), pixels.len());
    answer(unsafe { raw::mel_unpack(file.as_ptr(), file.len(), section, to, room) })
}

/// The listing of a file, a line for each section.
pub fn listing(file: &[u8], out: &mut [u8]) -> Answer {
    answer(unsafe { raw::mel_listing(file.as_ptr(), file.len(), out.as_mut_ptr(), out.len()) })
}

/// The catalogue of a file.
pub fn catalogue(file: &[u8], out: &mut [u8]) -> Answer {
    answer(unsafe { raw::mel_catalogue(file.as_ptr(), file.len(), out.as_mut_ptr(), out.len()) })
}

/// The most bytes that a file of this length takes with a frame of so many pixels put in.
pub fn replaced_limit(file_len: usize, frame_len: usize) -> usize {
    file_len + 1_000 + 15 * frame_len
}

/// A copy of the file with the frame of a BINARY section replaced.
pub fn replace(file: &[u8], section: usize, frame: &[i64], out: &mut [u8]) -> Answer {
    let (from, count) = (frame.as_ptr(), frame.len());
    let (to, room) = (out.as_mut_ptr(), out.len());
    answer(unsafe { raw::mel_replace(file.as_ptr(), file.len(), section, from, count, to, room) })
}

/// Pixels packed by the byte-offset rule.
pub fn pack(element_type: u8, pixels: &[i64], out: &mut [u8]) -> Answer {
    let (from, count) = (pixels.as_ptr(), pixels.len());
    answer(unsafe { raw::mel_pack(element_type, from, count, out.as_mut_ptr(), out.len()) })
}

/// Pixels from octets alone.
pub fn unpack_octets(
    element_type: u8,
    compression: u8,
    octets: &[u8],
    count: usize,
    pixels: &mut [i64],
) -> Answer {
    let (from, length) = (octets.as_ptr(), octets.len());
    let (to, room) = (pixels.as_mut_ptr(), pixels.len());
    answer(unsafe {
        raw::mel_unpack_octets(element_type, compression, from, length, count, to, room)
    })
}
