//! The library's answers on pixels against the reference's, with the contents of every lent slice: canaries stand
//! beyond the answer, and in all of it where the call is refused.

use super::{calls, differ};
use crate::inputs::chance::{overlong, pixels};
use crate::inputs::random::Random;
use crate::reference::pixels as reference;

/// So many octets are shown of those that make a difference.
const SHOWN: usize = 20_000;

pub fn canaries(random: &mut Random, n: usize) -> Vec<i64> {
    (0..n).map(|_| random.next() as i64).collect()
}

/// The refusal's number, or 0.
pub fn check_pack(element_type: u8, pixels: &[i64], room: usize, random: &mut Random) -> u32 {
    let before: Vec<u8> = (0..room).map(|_| random.next() as u8).collect();
    let mut out = before.clone();
    let got = calls::pack(element_type, pixels, &mut out);
    let expected = reference::pack(element_type, pixels, room);
    let mut after = before;
    let answer = calls::answer(expected.map(|octets| {
        after[..octets.len()].copy_from_slice(&octets);
        octets.len()
    }));
    if got != answer || out != after {
        differ(format!(
            "pack type {element_type} room {room} pixels {pixels:?}: {got:?}, and not {answer:?}"
        ));
    }
    answer.refusal
}

/// The refusal's number, or 0.
pub fn check_unpack(
    element_type: u8,
    compression: u8,
    octets: &[u8],
    count: usize,
    room: usize,
    random: &mut Random,
) -> u32 {
    let before = canaries(random, room);
    let mut out = before.clone();
    let got = calls::unpack_octets(element_type, compression, octets, count, &mut out);
    let expected = reference::unpack(element_type, compression, octets, count, room);
    let mut after = before;
    let answer = calls::answer(expected.map(|pixels| {
        after[..pixels.len()].copy_from_slice(&pixels);
        pixels.len()
    }));
    if got != answer || out != after {
        let (shown, size) = (&octets[..octets.len().min(SHOWN)], octets.len());
        differ(format!(
            "unpack type {element_type} compression {compression} count {count} room {room} {size} octets \
            {shown:02x?}: {got:?}, and not {answer:?}"
        ));
    }
    answer.refusal
}

/// Room too small by one, exact, larger, and none.
fn rooms(n: usize, random: &mut Random) -> [usize; 4] {
    [n, n.saturating_sub(1), n + 1 + random.below(40), 0]
}

fn count(random: &mut Random) -> usize {
    match random.below(4) {
        0 => random.below(6),
        1 => random.below(70),
        2 => 30 + random.below(8),
        _ => random.below(700),
    }
}

/// Damages octets: cuts, adds, or changes some.
fn damage(octets: &mut Vec<u8>, random: &mut Random) {
    match random.below(5) {
        0 => octets.truncate(random.below(octets.len() + 1)),
        1 => octets.extend((0..1 + random.below(20)).map(|_| random.next() as u8)),
        2 if !octets.is_empty() => {
            let at = random.below(octets.len());
            octets[at] = [0x80, 0x7f, 0x00, 0xff, random.next() as u8][random.below(5)];
        }
        3 if !octets.is_empty() => {
            octets.pop();
        }
        _ => octets.push(random.next() as u8),
    }
}

/// A frame's octets: whole, wider than they need to be, as another type's, and damaged; tells how many calls.
fn octets_of(element_type: u8, frame: &[i64], random: &mut Random) -> usize {
    let n = frame.len();
    let mut octets = reference::pack(element_type, frame, usize::MAX).unwrap();
    for room in rooms(octets.len(), random) {
        check_pack(element_type, frame, room, random);
    }
    for room in rooms(n, random) {
        check_unpack(element_type, 1, &octets, n, room, random);
    }
    let long = overlong(frame, random);
    check_unpack(element_type, 1, &long, n, n, random);
    check_unpack(element_type, 1, &long, n + 1, n + 1, random);
    check_unpack(element_type, 1, &long, n.saturating_sub(1), n, random);
    // The same octets as another type: a pixel leaves its range wherever the types differ.
    let other = 1 + random.below(6) as u8;
    check_unpack(other, 1, &long, n, n, random);
    damage(&mut octets, random);
    check_unpack(element_type, 1, &octets, n, n, random);
    4 + 4 + 3 + 1 + 1
}

/// One pixel outside the type, where there is one.
fn outside(element_type: u8, mut frame: Vec<i64>, random: &mut Random) -> usize {
    if frame.is_empty() {
        return 0;
    }
    let (least, greatest, _) = reference::range(element_type).unwrap();
    let at = random.below(frame.len());
    let any = random.next() as i64;
    frame[at] = [least - 1, greatest + 1, i64::MIN, i64::MAX, any][random.below(5)];
    check_pack(element_type, &frame, 15 * frame.len(), random);
    1
}

/// Uncompressed octets, as many as there should be and not, and octets with no meaning.
fn octets_by_chance(element_type: u8, n: usize, random: &mut Random) -> usize {
    let (_, _, width) = reference::range(element_type).unwrap();
    let raw: Vec<u8> = (0..n * width).map(|_| random.next() as u8).collect();
    for room in rooms(n, random) {
        check_unpack(element_type, 0, &raw, n, room, random);
    }
    check_unpack(element_type, 0, &raw, n + 1, n + 1, random);
    let short = &raw[..raw.len().saturating_sub(1)];
    check_unpack(element_type, 0, short, n, n, random);
    let octet = |random: &mut Random| match random.below(3) {
        0 => 0x80,
        _ => random.next() as u8,
    };
    let noise: Vec<u8> = (0..n).map(|_| octet(random)).collect();
    check_unpack(element_type, 1, &noise, n / 2, n, random);
    4 + 2 + 1
}

fn round(element_type: u8, random: &mut Random) -> usize {
    let (least, greatest, _) = reference::range(element_type).unwrap();
    let n = count(random);
    let frame = pixels(n, least, greatest, random);
    let calls = octets_of(element_type, &frame, random);
    calls + outside(element_type, frame, random) + octets_by_chance(element_type, n, random)
}

/// Runs of plain octets to each end of the type and one beyond, at each place of a block; an escape at each place of
/// a block.
fn blocks(element_type: u8, random: &mut Random) -> usize {
    let (least, greatest, _) = reference::range(element_type).unwrap();
    let mut calls = 0;
    for n in [31, 32, 33, 64, 95, 500] {
        for at in 0..n.min(70) {
            for beyond in 0..2 {
                for (end, away) in [(least, -1), (greatest, 1)] {
                    let mut octets = Vec::new();
                    let mut last = 0;
                    for k in 0..n {
                        let p = if k == at {
                            end + away * beyond
                        } else {
                            end - away * (1 + random.below(90) as i64)
                        };
                        reference::put_difference(p - last, 0, &mut octets);
                        last = p;
                    }
                    check_unpack(element_type, 1, &octets, n, n, random);
                    calls += 1;
                }
            }
            let mut frame = vec![least.max(-1); n];
            frame[at] = greatest.min(least + 128 + random.below(70_000) as i64);
            check_pack(element_type, &frame, 15 * n, random);
            let octets = overlong(&frame, random);
            check_unpack(element_type, 1, &octets, n, n, random);
            calls += 2;
        }
    }
    calls
}

/// Differences of eight octets, at and about each number that a sum could wrap at.
fn far(element_type: u8, random: &mut Random) -> usize {
    let mut calls = 0;
    let mut numbers = vec![i64::MIN, i64::MIN + 1, i64::MAX, -1, 0, 1];
    for bits in 30..63 {
        for near in -1..2 {
            numbers.extend([(1i64 << bits) + near, -(1i64 << bits) + near]);
        }
    }
    for &first in &numbers {
        for &second in &numbers {
            for n in [2, 40] {
                let mut octets = Vec::new();
                for d in [first, second] {
                    octets.extend([0x80, 0, 0x80, 0, 0, 0, 0x80]);
                    octets.extend(d.to_le_bytes());
                }
                octets.resize(octets.len() + 500 * (n / 40), 0);
                let count = if n == 2 { 2 } else { 502 };
                check_unpack(element_type, 1, &octets, count, count, random);
                calls += 1;
            }
        }
    }
    calls
}

/// Compares all calls, and tells how many there were.
pub fn all() -> usize {
    let mut random = Random::new(1);
    let mut calls = 0;
    for element_type in 1..=6 {
        calls += blocks(element_type, &mut random);
        calls += far(element_type, &mut random);
        for _ in 0..2_500 {
            calls += round(element_type, &mut random);
        }
    }
    for element_type in [0, 7, 8, 255] {
        check_pack(element_type, &[1, 2], 9, &mut random);
        check_unpack(element_type, 1, &[1, 2], 2, 9, &mut random);
        check_unpack(6, element_type.max(2), &[1, 2], 2, 9, &mut random);
        calls += 3;
    }
    check_unpack(6, 1, &[0; 64], reference::PIXEL_LIMIT + 1, 64, &mut random);
    check_unpack(6, 0, &[0; 64], usize::MAX, 64, &mut random);
    check_pack(1, &vec![0; reference::PIXEL_LIMIT + 1], 64, &mut random);
    calls + 3
}
