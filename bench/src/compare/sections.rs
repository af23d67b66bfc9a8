//! The library's count of sections, their fields, octets and pixels against the reference's. Canaries stand as in
//! pixels.rs.

use super::pixels::canaries;
use super::{calls, differ};
use crate::inputs::contents::WINDOW;
use crate::inputs::random::Random;
use crate::reference::reader::{Read, Refusal, Section};
use crate::reference::sections;
use mooringelm::raw::Answer;
use std::ops::Range;

/// Of a file with more sections, some are looked at.
const SOME: usize = 6;

/// What the calls on sections met.
#[derive(Default)]
pub struct Tally {
    calls: usize,
    /// Those that ask for all fields of a section.
    fields: usize,
    /// How often each refusal was met, by its number.
    refused: [usize; 19],
    /// Sections that unpack: BINARY and BASE64, each uncompressed and byte offset.
    unpacked: [usize; 4],
    /// Sections that do not unpack: BINARY and BASE64.
    failed: [usize; 2],
    /// BASE64 sections of byte offset with more octets than one window: those that unpack, and those that do not.
    long: [usize; 2],
}

impl Tally {
    fn answer(&mut self, refusal: u32) {
        self.calls += 1;
        self.refused[refusal as usize] += 1;
    }

    /// Both functions that tell of a section's fields.
    fn fields(&mut self, refusal: u32) {
        self.fields += 2;
        self.answer(refusal);
        self.answer(refusal);
    }

    fn section(&mut self, section: &Section, unpacks: bool) {
        let encoding = usize::from(section.base64);
        if unpacks {
            self.unpacked[2 * encoding + usize::from(section.byte_offset)] += 1;
        } else {
            self.failed[encoding] += 1;
        }
        if section.base64 && section.byte_offset && section.size > WINDOW {
            self.long[usize::from(!unpacks)] += 1;
        }
    }

    /// Tells what was met; whether it shows enough.
    pub fn show(&self) -> bool {
        let [binary, binary_offset, base64, base64_offset] = self.unpacked;
        print!(
            "{} of the calls are on sections, {} for all fields; uncompressed, byte offset, not to be unpacked:",
            self.calls, self.fields
        );
        print!(" BINARY {binary}, {binary_offset}, {};", self.failed[0]);
        print!(" BASE64 {base64}, {base64_offset}, {},", self.failed[1]);
        print!(
            " beyond {WINDOW} octets {}, {};",
            self.long[0], self.long[1]
        );
        print!(" refusal -> how often:");
        for number in [12, 13, 15, 18] {
            print!(" {number} -> {}", self.refused[number]);
        }
        println!();
        let refused = [12, 13, 15, 18].map(|number| self.refused[number]);
        let met = [&self.unpacked[..], &self.failed, &self.long, &refused].concat();
        let enough = !met.contains(&0);
        if !enough {
            println!("NOT ENOUGH: one of these is never met");
        }
        enough
    }

    pub fn calls(&self) -> usize {
        self.calls
    }
}

fn check_count(file: &[u8], read: &Read, tally: &mut Tally) {
    let expected = calls::answer(read.as_ref().map(Vec::len).map_err(|refusal| *refusal));
    let got = calls::count(file);
    tally.answer(expected.refusal);
    if got != expected {
        differ(format!(
            "count: {got:?}, expected {expected:?}; the file is {}",
            file.escape_ascii()
        ));
    }
}

/// Compares every field of a section's answer, by the function for C and by the safe one over it.
pub fn check_fields(file: &[u8], read: &Read, number: usize) -> u32 {
    let found = match read {
        Err(refusal) => Err(*refusal),
        Ok(sections) => sections::numbered(sections, number),
    };
    let got = calls::section(file, number);
    let expected = calls::section_answer(found, got.name_start);
    let name = got.name_start as usize..got.name_start as usize + got.name_length as usize;
    let named = file.get(name.clone()) == Some(found.map_or(b"", |section| section.block));
    let safe = mooringelm::section(file, number).map_err(|refusal| (refusal.number, refusal.place));
    let safe_right = safe == found.map(|section| safe_fields(section, name));
    if got != expected || !named || !safe_right {
        differ(format!(
            "section {number}: {got:?}, expected {expected:?}, name right: {named}, safe function right: {safe_right}; \
            the file is {}",
            file.escape_ascii()
        ));
    }
    expected.refusal
}

/// A section as the safe function is to tell of it.
fn safe_fields(section: &Section, name: Range<usize>) -> mooringelm::Section {
    mooringelm::Section {
        span: section.boundary..section.end,
        position: section.position,
        size: section.size,
        elements: section.elements,
        id: section.id,
        dimensions: section.dimensions,
        name,
        compression: section.byte_offset.into(),
        element_type: section.element_type,
        encoding: section.base64.into(),
    }
}

fn check_octets(file: &[u8], read: &Read, number: usize, tally: &mut Tally) {
    let found = match read {
        Err(refusal) => Err(*refusal),
        Ok(sections) => sections::octets(sections, number),
    };
    let expected = calls::octets_answer(found);
    let got = calls::octets(file, number);
    tally.answer(expected.refusal);
    if got != expected {
        differ(format!(
            "octets {number}: {got:?}, expected {expected:?}; the file is {}",
            file.escape_ascii()
        ));
    }
}

/// What unpacking a section is to say where there is room.
pub type Pixels = Result<Vec<i64>, Refusal>;

pub fn check_room(
    file: &[u8],
    pixels: &Pixels,
    number: usize,
    room: usize,
    random: &mut Random,
) -> Answer {
    let before = canaries(random, room);
    let mut out = before.clone();
    let got = calls::unpack(file, number, &mut out);
    let mut after = before;
    let expected = calls::answer(match pixels {
        Err(refusal) => Err(*refusal),
        Ok(pixels) if pixels.len() > room => Err((15, 0)),
        Ok(pixels) => {
            after[..pixels.len()].copy_from_slice(pixels);
            Ok(pixels.len())
        }
    });
    if got != expected || out != after {
        let memory = if out == after { "right" } else { "wrong" };
        differ(format!(
            "unpack {number} room {room}: {got:?}, expected {expected:?}, lent memory {memory}; the file is {}",
            file.escape_ascii()
        ));
    }
    expected
}

/// Room exact, too small by one, none, and more than enough.
fn check_unpack(file: &[u8], read: &Read, number: usize, random: &mut Random, tally: &mut Tally) {
    let pixels = match read {
        Err(refusal) => Err(*refusal),
        Ok(sections) => sections::pixels(file, sections, number),
    };
    let section = read
        .as_ref()
        .ok()
        .and_then(|s| s.get(number.wrapping_sub(1)));
    if let Some(section) = section {
        tally.section(section, pixels.is_ok());
    }
    let elements = section.map_or(0, |s| s.elements);
    let mut rooms = vec![0, elements + 1 + random.below(40)];
    if elements > 0 {
        rooms.extend([elements, elements - 1]);
    }
    for room in rooms {
        tally.answer(check_room(file, &pixels, number, room, random).refusal);
    }
}

/// Three numbers that no section has.
fn no_sections(count: usize, random: &mut Random) -> [usize; 3] {
    let far = [usize::MAX, (1 << 32) + 1, (1 << 32) + count][random.below(3)];
    [0, count + 1, far]
}

/// All section numbers, or the first two, the last two and two by chance.
fn some(count: usize, random: &mut Random) -> Vec<usize> {
    if count <= SOME {
        (1..=count).collect()
    } else {
        let chance = [(); 2].map(|()| 3 + random.below(count - 4));
        vec![1, 2, count - 1, count, chance[0], chance[1]]
    }
}

/// Compares all calls on the file's sections.
pub fn check(file: &[u8], read: &Read, random: &mut Random, tally: &mut Tally) {
    check_count(file, read, tally);
    let count = read.as_ref().map_or(0, Vec::len);
    let none = no_sections(count, random);
    for number in none.into_iter().chain(1..=count) {
        tally.fields(check_fields(file, read, number));
    }
    for number in none.into_iter().chain(some(count, random)) {
        check_octets(file, read, number, tally);
        check_unpack(file, read, number, random, tally);
    }
}
