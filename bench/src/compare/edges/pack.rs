//! Frames that drive packing to the edges of its loops: parts of 128 pixels and about that, dense and quiet ones, with
//! room that is just enough for each way to write them, and one octet less.

use super::Edges;
use crate::inputs::differences::{between, Kind};
use crate::reference::pixels::put_difference;

/// Pixels that a loop takes at once, where many differences are wide.
const PART: usize = 128;

/// Pixels that a loop takes at once, where all are near each other.
const BLOCK: usize = 32;

const COUNTS: [usize; 15] = [
    1, 2, 3, 127, 128, 129, 255, 256, 257, 383, 384, 385, 639, 640, 641,
];

/// In a hundred differences, how many are wide.
const SHARES: [usize; 6] = [100, 90, 60, 30, 10, 3];

/// Sizes of differences where a width ends and the next one starts.
const WIDTH_ENDS: [i64; 6] = [127, 128, 32_767, 32_768, 2_147_483_647, 2_147_483_648];

/// A frame that grows.
struct Frame {
    kind: Kind,
    pixels: Vec<i64>,
}

impl Frame {
    fn new(kind: Kind) -> Self {
        let pixels = Vec::new();
        Frame { kind, pixels }
    }

    fn last(&self) -> i64 {
        self.pixels.last().map_or(0, |&pixel| pixel)
    }

    /// Small steps, all at most one of several sizes.
    fn quiet(mut self, n: usize, edges: &mut Edges) -> Self {
        let most = [0, 1, 4, 63, 127][edges.random.below(5)];
        for _ in 0..n {
            let pixel = self.kind.step(self.last(), most, &mut edges.random);
            self.pixels.push(pixel);
        }
        self
    }

    /// Differences of those sizes, that many of a hundred, and plain ones.
    fn dense(mut self, n: usize, sizes: (i64, i64), share: usize, edges: &mut Edges) -> Self {
        for _ in 0..n {
            let pixel = if edges.random.below(100) < share {
                self.kind.jump(self.last(), sizes, &mut edges.random)
            } else {
                self.kind.step(self.last(), 127, &mut edges.random)
            };
            self.pixels.push(pixel);
        }
        self
    }
}

/// Octets of the frame; it may have pixels outside the type.
fn size(frame: &[i64]) -> usize {
    let (mut octets, mut last) = (Vec::new(), 0);
    for &pixel in frame {
        put_difference(pixel.wrapping_sub(last), 0, &mut octets);
        last = pixel;
    }
    octets.len()
}

/// Room for 15 octets a pixel and one less, exact, one short, and up to eight more.
fn rooms(frame: &[i64]) -> Vec<usize> {
    let (most, size) = (15 * frame.len(), size(frame));
    let mut rooms = vec![most, most - 1, size - 1];
    rooms.extend((0..=8).map(|more| size + more));
    rooms
}

/// Room that is as much as 15 octets for each pixel of what is left, of a part or of a block, somewhere behind the
/// first pixels; or one octet less or more.
fn room_from_within(frame: &[i64], edges: &mut Edges) -> usize {
    let step = [PART, BLOCK][edges.random.below(2)];
    let done = step * edges.random.below(frame.len() / step + 1);
    let left = frame.len() - done;
    let ahead = [left, PART, BLOCK, PART + BLOCK][edges.random.below(4)];
    size(&frame[..done]) + 15 * ahead + edges.random.below(3) - 1
}

fn check_all_rooms(edges: &mut Edges, frame: &Frame) {
    for room in rooms(&frame.pixels) {
        edges.pack(frame.kind, &frame.pixels, room);
    }
    for _ in 0..3 {
        let room = room_from_within(&frame.pixels, edges);
        edges.pack(frame.kind, &frame.pixels, room);
    }
}

/// Some of them: where there are very many frames.
fn check_some_rooms(edges: &mut Edges, frame: &Frame) {
    let rooms = rooms(&frame.pixels);
    for room in [rooms[0], rooms[3], rooms[edges.random.below(rooms.len())]] {
        edges.pack(frame.kind, &frame.pixels, room);
    }
    let room = room_from_within(&frame.pixels, edges);
    edges.pack(frame.kind, &frame.pixels, room);
}

/// Frames of one sort, of as many pixels as fill parts, and one more and less.
fn counts(kind: Kind, edges: &mut Edges) {
    for n in COUNTS {
        for _ in 0..3 {
            let frame = Frame::new(kind).quiet(n, edges);
            check_all_rooms(edges, &frame);
            for &sizes in kind.wide() {
                for share in SHARES {
                    let frame = Frame::new(kind).dense(n, sizes, share, edges);
                    check_all_rooms(edges, &frame);
                }
            }
        }
    }
}

/// A dense part behind each number of quiet pixels, and quiet pixels behind each number of dense ones.
fn mixtures(kind: Kind, edges: &mut Edges) {
    for &sizes in kind.wide() {
        for first in (0..=160).chain([192, 224, 255, 256, 257, 288]) {
            let share = SHARES[edges.random.below(SHARES.len())];
            let second = PART + edges.random.below(2 * PART);
            let frame = Frame::new(kind).quiet(first, edges);
            let frame = frame.dense(second, sizes, share, edges);
            check_some_rooms(edges, &frame);
            let frame = frame.quiet(edges.random.below(2 * PART), edges);
            check_some_rooms(edges, &frame);
            let frame = Frame::new(kind).dense(first, sizes, share, edges);
            let frame = frame.quiet(second, edges);
            check_some_rooms(edges, &frame);
            let frame = frame.dense(edges.random.below(2 * PART), sizes, share, edges);
            check_some_rooms(edges, &frame);
        }
    }
}

/// A last part that is dense, behind whole blocks of quiet pixels and before 0 to 9 of either sort.
fn last_parts(kind: Kind, edges: &mut Edges) {
    for &sizes in kind.wide() {
        for blocks in 0..8 {
            for behind in 0..10 {
                let share = SHARES[edges.random.below(3)];
                let part = |edges: &mut Edges| {
                    let frame = Frame::new(kind).quiet(BLOCK * blocks, edges);
                    frame.dense(PART, sizes, share, edges)
                };
                let frame = part(edges).quiet(behind, edges);
                check_all_rooms(edges, &frame);
                let frame = part(edges).dense(behind, sizes, 100, edges);
                check_all_rooms(edges, &frame);
            }
        }
    }
}

/// Two pixels of the type with that difference, at an end of the type or anywhere.
fn apart(kind: Kind, difference: i64, edges: &mut Edges) -> Option<(i64, i64)> {
    let from = kind.least.max(kind.least - difference);
    let to = kind.greatest.min(kind.greatest - difference);
    let first = match edges.random.below(3) {
        _ if from > to => return None,
        0 => from,
        1 => to,
        _ => between(from, to, &mut edges.random),
    };
    Some((first, first + difference))
}

/// Differences where a width ends, at every place of a dense part, of a quiet one, and behind some blocks.
fn width_ends(kind: Kind, edges: &mut Edges) {
    for difference in WIDTH_ENDS.into_iter().flat_map(|d| [d, -d]) {
        for at in 0..PART {
            for lead in [0, BLOCK * (1 + edges.random.below(5))] {
                let Some((first, second)) = apart(kind, difference, edges) else {
                    continue;
                };
                let widths = kind.wide();
                let sizes = widths[edges.random.below(widths.len())];
                let share = [0, 5, 50, 100][edges.random.below(4)];
                let frame = Frame::new(kind).quiet(lead, edges);
                let mut frame = frame.dense(PART + edges.random.below(3), sizes, share, edges);
                match (lead + at).checked_sub(1) {
                    Some(before) => {
                        frame.pixels[before] = first;
                        frame.pixels[lead + at] = second;
                    }
                    // The first pixel differs from 0.
                    None => frame.pixels[0] = kind.cut(difference),
                }
                check_some_rooms(edges, &frame);
            }
        }
    }
}

/// A pixel one outside the type or far outside, at the first, the last and other places of a part.
fn outside(kind: Kind, edges: &mut Edges) {
    let far = (1 << 32) + kind.greatest;
    let values = [kind.least - 1, kind.greatest + 1, far, i64::MIN, i64::MAX];
    for n in COUNTS {
        let places = [0, 1, 31, 32, 63, 64, 126, 127, 128, 129, 255, 256, n / 2];
        for at in places.into_iter().chain([n - 1]).filter(|&at| at < n) {
            for value in values {
                let widths = kind.wide();
                let sizes = widths[edges.random.below(widths.len())];
                let share = [0, 3, 60, 100][edges.random.below(4)];
                let mut frame = Frame::new(kind).dense(n, sizes, share, edges);
                frame.pixels[at] = value;
                for room in rooms(&frame.pixels) {
                    edges.pack(kind, &frame.pixels, room);
                }
            }
        }
    }
}

/// Pixels on both sides of a power of two, as far as the type goes: near each other, and to and fro between several.
fn powers(kind: Kind, edges: &mut Edges) {
    let numbers = [0, 7, 8, 15, 16, 24, 29, 30, 31, 32].map(|bits| 1i64 << bits);
    let numbers: Vec<i64> = numbers.into_iter().flat_map(|n| [n, -n]).collect();
    for n in [BLOCK, PART, PART + 1, 2 * PART + 1, 640] {
        for &number in &numbers {
            for spread in [1, 2, 40, 63, 64, 127] {
                let near = |edges: &mut Edges, number| {
                    kind.cut(number + between(-spread, spread, &mut edges.random))
                };
                let mut frame = Frame::new(kind);
                frame.pixels = (0..n).map(|_| near(edges, number)).collect();
                check_some_rooms(edges, &frame);
                for pixel in &mut frame.pixels {
                    if edges.random.below(4) == 0 {
                        let other = numbers[edges.random.below(numbers.len())];
                        *pixel = near(edges, other);
                    }
                }
                check_some_rooms(edges, &frame);
            }
        }
    }
}

/// Pixels from 128 k to 128 k + 127, but for one at each place of two blocks: at an end of these numbers or one beyond.
fn aligned(kind: Kind, edges: &mut Edges) {
    let bases = [kind.least, 0, kind.middle() & !127, kind.greatest - 127];
    for base in bases.into_iter().filter(|base| base % 128 == 0) {
        for at in 0..2 * BLOCK {
            for value in [base - 1, base, base + 127, base + 128] {
                let inside = |edges: &mut Edges| base + edges.random.below(128) as i64;
                let mut frame = Frame::new(kind);
                let n = 3 * BLOCK + edges.random.below(PART);
                frame.pixels = (0..n).map(|_| kind.cut(inside(edges))).collect();
                frame.pixels[at] = value;
                check_some_rooms(edges, &frame);
            }
        }
    }
}

pub fn all(kind: Kind, edges: &mut Edges) {
    for group in [
        counts, mixtures, last_parts, width_ends, outside, powers, aligned,
    ] {
        group(kind, edges);
    }
}
