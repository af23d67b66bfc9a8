//! The functions for C with slices for their pointers and lengths, and what they are to return, field by field.

use crate::reference::reader::{Refusal, Section};
use mooringelm::raw::{self, Answer, OctetsAnswer, SectionAnswer};

// In each function below the call is sound since a slice is valid for its length and aligned, and what is lent for
// writing is borrowed alone.

pub fn count(file: &[u8]) -> Answer {
    unsafe { raw::mel_count(file.as_ptr(), file.len()) }
}

pub fn section(file: &[u8], number: usize) -> SectionAnswer {
    unsafe { raw::mel_section(file.as_ptr(), file.len(), number) }
}

pub fn octets(file: &[u8], number: usize) -> OctetsAnswer {
    unsafe { raw::mel_octets(file.as_ptr(), file.len(), number) }
}

pub fn unpack(file: &[u8], number: usize, pixels: &mut [i64]) -> Answer {
    let (to, room) = (pixels.as_mut_ptr(), pixels.len());
    unsafe { raw::mel_unpack(file.as_ptr(), file.len(), number, to, room) }
}

pub fn listing(file: &[u8], out: &mut [u8]) -> Answer {
    unsafe { raw::mel_listing(file.as_ptr(), file.len(), out.as_mut_ptr(), out.len()) }
}

pub fn catalogue(file: &[u8], out: &mut [u8]) -> Answer {
    unsafe { raw::mel_catalogue(file.as_ptr(), file.len(), out.as_mut_ptr(), out.len()) }
}

pub fn replace(file: &[u8], number: usize, frame: &[i64], out: &mut [u8]) -> Answer {
    let (from, count) = (frame.as_ptr(), frame.len());
    let (to, room) = (out.as_mut_ptr(), out.len());
    unsafe { raw::mel_replace(file.as_ptr(), file.len(), number, from, count, to, room) }
}

pub fn pack(element_type: u8, pixels: &[i64], out: &mut [u8]) -> Answer {
    let (from, count) = (pixels.as_ptr(), pixels.len());
    unsafe { raw::mel_pack(element_type, from, count, out.as_mut_ptr(), out.len()) }
}

pub fn unpack_octets(
    element_type: u8,
    compression: u8,
    octets: &[u8],
    count: usize,
    pixels: &mut [i64],
) -> Answer {
    let (from, length) = (octets.as_ptr(), octets.len());
    let (to, room) = (pixels.as_mut_ptr(), pixels.len());
    unsafe { raw::mel_unpack_octets(element_type, compression, from, length, count, to, room) }
}

/// A number that C gets in 32 bits.
fn word(number: usize) -> u32 {
    number.try_into().expect("at most 32 bits")
}

/// The whole answer: success has a length and nothing else, a refusal its number and place and nothing else.
pub fn answer(said: Result<usize, Refusal>) -> Answer {
    let (refusal, place) = said.err().unwrap_or_default();
    Answer {
        refusal,
        place,
        item: 0,
        length: word(said.unwrap_or(0)),
    }
}

/// The same for octets, of which start and length are said.
pub fn octets_answer(said: Result<(usize, usize), Refusal>) -> OctetsAnswer {
    let (refusal, place) = said.err().unwrap_or_default();
    let (start, length) = said.unwrap_or_default();
    OctetsAnswer {
        refusal,
        place,
        item: 0,
        length: word(length),
        start: start as u64,
    }
}

/// The same for a section's fields. Where its name stands in the file is not said: the same bytes may stand in more
/// than one place.
pub fn section_answer(said: Result<&Section, Refusal>, name_start: u32) -> SectionAnswer {
    let refused = |(refusal, place)| SectionAnswer {
        refusal,
        place,
        ..NOTHING
    };
    said.map_or_else(refused, |section| SectionAnswer {
        boundary: word(section.boundary),
        span_end: word(section.end),
        position: word(section.position),
        size: word(section.size),
        elements: word(section.elements),
        id: section.id,
        fastest: section.dimensions[0],
        second: section.dimensions[1],
        third: section.dimensions[2],
        name_start,
        name_length: word(section.block.len()),
        compression: section.byte_offset.into(),
        element_type: section.element_type,
        encoding: section.base64.into(),
        ..NOTHING
    })
}

const NOTHING: SectionAnswer = SectionAnswer {
    refusal: 0,
    place: 0,
    item: 0,
    boundary: 0,
    span_end: 0,
    position: 0,
    size: 0,
    elements: 0,
    id: 0,
    fastest: 0,
    second: 0,
    third: 0,
    name_start: 0,
    name_length: 0,
    compression: 0,
    element_type: 0,
    encoding: 0,
};
