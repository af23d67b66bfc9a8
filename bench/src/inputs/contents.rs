//! The octets of sections by chance: most unpack, some do not.

use super::chance::{overlong, pixels};
use super::random::Random;
use crate::reference::pixels::{put_difference, range};

/// The library decodes BASE64 through a window of that many octets.
pub const WINDOW: usize = 1_536;

const CLOSING: &[u8] =
    b"\r\n--CIF-BINARY-FORMAT-SECTION----\r\n;\r\n--CIF-BINARY-FORMAT-SECTION--\n";

/// Octets, and how many elements they are said to be.
pub type Content = (Vec<u8>, usize);

pub fn content(element_type: u8, byte_offset: bool, random: &mut Random) -> Content {
    if byte_offset {
        compressed(element_type, random)
    } else {
        uncompressed(element_type, random)
    }
}

fn elements(random: &mut Random) -> usize {
    match random.below(5) {
        0 => 0,
        1 => random.below(4),
        2 => 16,
        3 => random.below(40),
        _ => random.below(150),
    }
}

/// A number of octets a little below, at or above one or two windows.
fn near_an_edge(random: &mut Random) -> usize {
    WINDOW * (1 + random.below(2)) - 8 + random.below(16)
}

/// Now and then with a closing inside.
fn noise(size: usize, random: &mut Random) -> Vec<u8> {
    let mut octets: Vec<u8> = (0..size).map(|_| random.next() as u8).collect();
    if size >= CLOSING.len() && random.below(2) == 0 {
        let at = random.below(size - CLOSING.len() + 1);
        octets[at..at + CLOSING.len()].copy_from_slice(CLOSING);
    }
    octets
}

fn uncompressed(element_type: u8, random: &mut Random) -> Content {
    let (_, _, width) = range(element_type).unwrap();
    let elements = match random.below(20) {
        0 => near_an_edge(random) / width,
        1 => random.below(2_000),
        _ => elements(random),
    };
    (noise(elements * width, random), elements)
}

fn compressed(element_type: u8, random: &mut Random) -> Content {
    let mut content = match random.below(24) {
        0..=2 => meaningless(random),
        3..=5 => across_an_edge(element_type, random),
        6 => frame(element_type, random.below(1_500), random),
        7 => with_closing(element_type, random),
        _ => frame(element_type, elements(random), random),
    };
    if random.below(5) == 0 {
        spoil(&mut content, random);
    }
    content
}

fn meaningless(random: &mut Random) -> Content {
    let elements = elements(random);
    let size = match random.below(4) {
        0 => elements,
        1 => 15 * elements,
        _ => elements + random.below(2 * elements + 1),
    };
    (noise(size, random), elements)
}

/// Pixels of the type, packed in any widths.
fn frame(element_type: u8, elements: usize, random: &mut Random) -> Content {
    let (least, greatest, _) = range(element_type).unwrap();
    let pixels = pixels(elements, least, greatest, random);
    (overlong(&pixels, random), elements)
}

/// The octets of a closing are differences too; the wider types hold their sum.
fn with_closing(element_type: u8, random: &mut Random) -> Content {
    let (mut octets, elements) = frame(element_type, elements(random), random);
    octets.extend_from_slice(CLOSING);
    (octets, elements + CLOSING.len())
}

/// A pixel of 0 to 100 or, now and then, any of the type.
fn pixel(element_type: u8, random: &mut Random) -> i64 {
    let (least, greatest, _) = range(element_type).unwrap();
    match random.below(30) {
        0 => least + (random.next() % (greatest - least + 1) as u64) as i64,
        _ => random.below(101) as i64,
    }
}

/// A difference of 1, 3, 7 or 15 octets, any number of them before the edge of a window, and few octets after it; or
/// an end before the edge.
fn across_an_edge(element_type: u8, random: &mut Random) -> Content {
    let narrowest = random.below(4);
    let width = [1, 3, 7, 15][narrowest];
    let edge = WINDOW * (1 + random.below(2));
    let first = edge - random.below(width.max(11) + 1);
    let end = match random.below(4) {
        0 => first,
        _ => first + width + random.below(8),
    };
    let often = 1 + random.below(20);
    let (mut octets, mut elements, mut last) = (Vec::new(), 0, 0);
    while octets.len() < end {
        let (at, wide) = (octets.len(), random.below(often) == 0);
        let (room, narrow) = match at {
            _ if at == first => (width, narrowest),
            _ if at < first => (first - at, if wide { random.below(4) } else { 0 }),
            _ => (end - at, 0),
        };
        let p = pixel(element_type, random);
        put_difference(p - last, narrow, &mut octets);
        if octets.len() - at > room {
            // The same pixel again, in as few octets as may be.
            octets.truncate(at);
            put_difference(0, if at == first { narrowest } else { 0 }, &mut octets);
        } else {
            last = p;
        }
        elements += 1;
    }
    (octets, elements)
}

/// A change by which octets run out or remain, or a pixel leaves its type; not every one does.
fn spoil((octets, elements): &mut Content, random: &mut Random) {
    let size = octets.len();
    if size == 0 {
        return;
    }
    let at = match random.below(3) {
        0 => size - 1 - random.below(size.min(16)),
        1 => size.min(WINDOW) - 1 - random.below(size.min(16)),
        _ => random.below(size),
    };
    match random.below(6) {
        0 if *elements < size => *elements += 1,
        1 if size <= 15 * (*elements - 1) => *elements -= 1,
        2 if *elements < size => _ = octets.pop(),
        3 if size < 15 * *elements => octets.push(random.next() as u8),
        4 => octets[at] = 0x80,
        _ => octets[at] ^= 1 << random.below(8),
    }
}
