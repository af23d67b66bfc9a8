//! Octets that drive unpacking to the edges of its loops: runs of plain octets that reach an end of the type, pixels
//! that leave a window, and differences of three octets at every place of a block.

use super::Edges;
use crate::inputs::differences::{between, Differences, Kind, Pace, PACES};

/// Octets that are looked at together, where all are plain.
const BLOCK: usize = 32;

/// Octets or pixels that are looked at together, where some are not.
const PART: usize = 128;

/// Octets that are looked at together, where escapes stand apart from each other.
const APART: usize = 192;

const LENGTHS: [usize; 22] = [
    1, 2, 3, 4, 31, 32, 33, 95, 96, 97, 191, 192, 193, 223, 224, 225, 1_023, 1_024, 1_025, 4_095,
    4_096, 5_000,
];

/// How far the pixel before a run is from an end of the type.
const AWAY: [i64; 12] = [0, 1, 2, 63, 64, 65, 127, 128, 255, 256, 1_000, 32_767];

/// Nothing, or some pixels behind what was put together, so that it is not always the end of the octets.
fn go_on(made: &mut Differences, kind: Kind, edges: &mut Edges) {
    let random = &mut edges.random;
    if random.below(3) == 0 {
        return;
    }
    let inside = kind.cut(made.last);
    made.put(inside, random.below(3));
    made.quiet(random.below(2 * PART), kind, random);
}

/// Runs that end one before an end of the type, at it, and one beyond; from pixels near to that end and far.
fn runs(kind: Kind, edges: &mut Edges) {
    let all = (kind.least, kind.greatest);
    for length in LENGTHS.into_iter().chain([4_097]) {
        let farthest = 127 * length as i64 - 1;
        for (end, out) in kind.ends() {
            for away in AWAY.into_iter().chain([farthest, farthest / 2]) {
                let start = end - out * away;
                if away > farthest || !kind.has(start) {
                    continue;
                }
                for beyond in [-1, 0, 1] {
                    let mut made = Differences::at(start);
                    let pace = PACES[edges.random.below(4)];
                    let goal = end + out * beyond;
                    made.walk(goal, length, all, pace, &mut edges.random);
                    go_on(&mut made, kind, edges);
                    edges.unpack(kind, &made);
                }
            }
        }
    }
}

/// Runs in which one pixel is at an end of the type or beyond it, and the next ones come back.
fn excursions(kind: Kind, edges: &mut Edges) {
    let all = (kind.least, kind.greatest);
    for length in LENGTHS.into_iter().chain([4_097]).filter(|&n| n > 2) {
        let somewhere = 1 + edges.random.below(length - 2);
        for place in [0, 1, length / 3, length / 2, length - 2, somewhere] {
            for (end, out) in kind.ends() {
                for (beyond, away) in [(0, 60), (1, 1), (1, 64), (1, 126), (2, 100), (60, 67)] {
                    let mut made = Differences::at(end - out * away);
                    let (there, back) =
                        (PACES[edges.random.below(4)], PACES[edges.random.below(4)]);
                    let random = &mut edges.random;
                    made.walk(end + out * beyond, place + 1, all, there, random);
                    let goal = end - out * random.below(60) as i64;
                    made.walk(goal, length - 1 - place, all, back, random);
                    go_on(&mut made, kind, edges);
                    edges.unpack(kind, &made);
                }
            }
        }
    }
}

/// Even steps up and down through each power of two that a sum could be held in, and to the type's ends and beyond.
fn ramps(kind: Kind, edges: &mut Edges) {
    let powers = [7, 8, 15, 16, 31, 32].map(|bits| 1i64 << bits);
    let limits = powers.into_iter().flat_map(|n| [n, -n, kind.least + n]);
    for limit in limits.chain([kind.least, kind.greatest, 0]) {
        for step in [127, 126, 64, 1].into_iter().flat_map(|n| [n, -n]) {
            for (before, n) in [(1, 40), (100, 200), (259, 300), (130, 517), (517, 1_100)] {
                let start = limit - step * before;
                let mut made = Differences::at(kind.cut(start));
                for _ in 0..n {
                    made.put(made.last + step, 0);
                }
                edges.unpack(kind, &made);
                // The same, but as far as the type goes.
                let mut made = Differences::at(kind.cut(start));
                while made.count <= n && kind.has(made.last + step) {
                    made.put(made.last + step, 0);
                }
                edges.unpack_and_spoil(kind, &made);
            }
        }
    }
}

/// A run about a pixel in which one is as far above or below it as a window may go, or one farther.
fn windows(kind: Kind, edges: &mut Edges) {
    for length in [BLOCK, 192, 193, 224, 256, 300, 1_024] {
        let places = [1, 5, 31, 32, 33, 63, 64, 95, 127, 128, 160, 191, length - 1];
        for far in [63, 64, 65, 126, 127, 128, 129, 255, 256]
            .into_iter()
            .flat_map(|n| [n, -n])
        {
            let near_an_end = |end: i64, more| kind.cut(end - far + more);
            let end = if far < 0 { kind.least } else { kind.greatest };
            let starts = [-1, 0, 1].map(|more| near_an_end(end, more));
            for start in starts.into_iter().chain([kind.middle(), kind.cut(100)]) {
                for place in places.into_iter().filter(|&place| place < length) {
                    let spread = [0, 3, 40, 60][edges.random.below(4)];
                    about(kind, start, spread, edges, (length, place, start + far));
                }
            }
        }
    }
}

/// Pixels about one of them, but for one, to which and from which the way leads by plain octets if it is long enough.
fn about(
    kind: Kind,
    start: i64,
    spread: i64,
    edges: &mut Edges,
    (length, place, other): (usize, usize, i64),
) {
    let random = &mut edges.random;
    let mut made = Differences::at(start);
    let halfway = (start + other) / 2;
    for k in 0..length {
        let pixel = match k {
            _ if k == place => other,
            _ if k + 1 == place || k == place + 1 => halfway,
            _ => start + between(-spread, spread, random),
        };
        // The one pixel may be outside the type, the others not.
        made.put(if k == place { pixel } else { kind.cut(pixel) }, 0);
    }
    edges.unpack(kind, &made);
}

/// Runs between two numbers, reaching both, anywhere in the type and at its ends; also with one pixel beyond them.
fn bands(kind: Kind, edges: &mut Edges) {
    for size in [
        1, 63, 64, 126, 127, 128, 129, 191, 192, 254, 255, 256, 257, 300,
    ] {
        let somewhere = kind.cut(between(kind.least, kind.greatest, &mut edges.random));
        for low in [kind.least, kind.middle(), kind.greatest - size, somewhere] {
            for length in [40, 192, 200, 256, 500, 1_024] {
                for beyond in [0, 1] {
                    for up in [false, true] {
                        band(kind, (low, low + size), length, beyond, up, edges);
                    }
                }
            }
        }
    }
}

fn band(
    kind: Kind,
    (low, high): (i64, i64),
    length: usize,
    beyond: i64,
    up: bool,
    edges: &mut Edges,
) {
    let random = &mut edges.random;
    let (goal, other) = if up {
        (high + beyond, low)
    } else {
        (low - beyond, high)
    };
    let mut made = Differences::at(kind.cut(between(low, high, random)));
    let first = 8 + random.below(length - 20);
    made.walk(other, first, (low, high), PACES[random.below(4)], random);
    let second = 5 + random.below(length - first - 10);
    made.walk(goal, second, (low, high), PACES[random.below(4)], random);
    let third = length - first - second;
    made.walk(other, third, (low, high), PACES[random.below(4)], random);
    edges.unpack(kind, &made);
}

/// Differences of three octets with 80 among the last two, and others; some could be plain.
const THREE: [i64; 18] = [
    128, -128, 384, 640, 32_640, -32_640, -32_767, -32_766, -32_513, -32_512, 32_767, 255, -255,
    127, -127, 0, 1, -1,
];

/// Differences of three octets at each place, one to four behind one another, with nothing or something behind them.
fn escapes(kind: Kind, edges: &mut Edges) {
    for first in THREE {
        let from = kind.least.max(kind.least - first);
        let to = kind.greatest.min(kind.greatest - first);
        if from > to {
            continue;
        }
        for place in 0..2 * PART + BLOCK + 5 {
            for behind in [0, 1, 5, 40, 130] {
                let start = between(from, to, &mut edges.random);
                let start = [from, to, start][edges.random.below(3)];
                let mut made = Differences::at(start);
                made.rest(place);
                made.put(start + first, 1);
                for _ in 0..edges.random.below(4) {
                    one_of_three(&mut made, kind, edges);
                }
                if behind == 0 && place % 8 == 0 {
                    edges.unpack_and_spoil(kind, &made);
                }
                made.quiet(behind, kind, &mut edges.random);
                edges.unpack(kind, &made);
            }
        }
    }
}

/// A difference of three octets that stays inside the type.
fn one_of_three(made: &mut Differences, kind: Kind, edges: &mut Edges) {
    let difference = THREE[edges.random.below(THREE.len())];
    let pixel = made.last + difference;
    made.put(if kind.has(pixel) { pixel } else { made.last }, 1);
}

/// Plain octets and, of a hundred, some differences of three octets; of those some of seven and of fifteen.
fn mixed(kind: Kind, edges: &mut Edges) {
    for n in [BLOCK, PART - 1, PART, PART + 1, 2 * PART, 300, 1_000, 2_000] {
        for share in [1, 3, 5, 5, 5, 8, 15, 40, 100] {
            for wide in [0, 0, 5, 30] {
                for _ in 0..4 {
                    let first = between(kind.least, kind.greatest, &mut edges.random);
                    let mut made = Differences::at(first);
                    while made.count < n {
                        mixed_pixel(&mut made, kind, share, wide, edges);
                    }
                    edges.unpack_and_spoil(kind, &made);
                }
            }
        }
    }
}

fn mixed_pixel(made: &mut Differences, kind: Kind, share: usize, wide: usize, edges: &mut Edges) {
    let random = &mut edges.random;
    if random.below(100) >= share {
        made.put(kind.step(made.last, 20, random), 0);
    } else if random.below(100) < wide {
        let sizes = kind.wide()[random.below(kind.wide().len())];
        made.put(kind.jump(made.last, sizes, random), 2 + random.below(2));
    } else if random.below(2) == 0 {
        made.put(kind.jump(made.last, kind.wide()[0], random), 1);
    } else {
        one_of_three(made, kind, edges);
    }
}

/// Mixed parts near an end of the type: at each place one pixel is before that end, at it, or one beyond.
fn one_outside(kind: Kind, edges: &mut Edges) {
    for (end, out) in kind.ends() {
        for place in 0..PART {
            for beyond in [-1, 0, 1] {
                for lead in [0, BLOCK, 200] {
                    let mut made = Differences::default();
                    for k in 0..lead + PART + edges.random.below(40) {
                        let random = &mut edges.random;
                        let escape = random.below(20) == 0;
                        let away = match random.below(2) {
                            0 if escape => 1 + random.below(30_000),
                            _ => 1 + random.below(63),
                        };
                        let pixel = match k == lead + place {
                            true => end + out * beyond,
                            false => kind.cut(end - out * away as i64),
                        };
                        made.put(pixel, escape.into());
                    }
                    edges.unpack(kind, &made);
                }
            }
        }
    }
}

/// The farthest that three octets go, and one more, from the ends of the type and its middle.
fn jumps(kind: Kind, edges: &mut Edges) {
    let (least, greatest) = (kind.least, kind.greatest);
    let starts = [
        least,
        greatest,
        least + 32_767,
        greatest - 32_767,
        kind.middle(),
    ];
    for start in starts.into_iter().flat_map(|p| [p - 1, p, p + 1]) {
        if !kind.has(start) {
            continue;
        }
        for jump in [32_767, -32_767, 32_768, -32_768] {
            for place in (0..=40).chain(120..136) {
                let mut made = Differences::at(start);
                made.rest(place);
                made.put(start + jump, 0);
                made.quiet(edges.random.below(60), kind, &mut edges.random);
                edges.unpack(kind, &made);
                // And back.
                made.put(start, edges.random.below(2));
                made.rest(edges.random.below(60));
                edges.unpack(kind, &made);
            }
        }
    }
}

/// How far from the pixel before them some pixel of octets with escapes is: a window of 32,768 numbers ends about
/// there.
const REACH: [i64; 10] = [
    0, 1, 16_382, 16_383, 16_384, 16_385, 32_766, 32_767, -16_384, -16_385,
];

/// Octets with escapes that stand apart, the last of them about the end of those that are looked at together, from
/// pixels at the distances from an end of the type at which a window or a sum is no longer enough. One pixel is at
/// that end, one beyond it, or at the end of a window.
fn apart(kind: Kind, edges: &mut Edges) {
    let far = 32_768 * APART as i64;
    let away = [0, 1, 16_383, 16_384, 32_767, 32_768, far - 1, far, far + 1];
    for (end, out) in kind.ends() {
        for start in away.map(|away| end - out * away) {
            if !kind.has(start) {
                continue;
            }
            for last in APART - 6..APART + 3 {
                let reached = REACH.map(|reach| start + out * reach);
                for goal in reached.into_iter().chain([end, end + out]) {
                    one_apart(kind, start, last, goal, edges);
                }
            }
        }
    }
}

/// An escape each 5 to 24 octets and one at the octet `last`; one pixel is `goal`, if one can reach it.
fn one_apart(kind: Kind, start: i64, last: usize, goal: i64, edges: &mut Edges) {
    let mut made = Differences::at(start);
    let first = made.octets.len();
    let mut next = edges.random.below(3);
    let place = edges.random.below(APART - 12);
    let mut missing = true;
    while made.octets.len() < first + APART + 40 {
        let at = made.octets.len() - first;
        let random = &mut edges.random;
        let escape = at == last || (at >= next && (at + 3 <= last || at > last + 2));
        let most = if escape { 32_767 } else { 100 };
        let wish = kind.cut(start + between(-most, most, random));
        let mut pixel = wish.clamp(made.last - most, made.last + most);
        if missing && at >= place && escape && (goal - made.last).abs() <= most {
            (pixel, missing) = (goal, false);
        }
        if escape {
            next = at + 5 + random.below(20);
        }
        made.put(pixel, escape.into());
    }
    edges.unpack(kind, &made);
}

/// All the way by 127 from 0 to an end of the type, and one beyond it: the sum of so many differences passes 2^31.
fn long_ramps(kind: Kind, edges: &mut Edges) {
    for (end, out) in kind.ends() {
        if end == 0 {
            continue;
        }
        for beyond in [0, 1] {
            let length = (out * end).unsigned_abs().div_ceil(127) as usize + 1;
            let mut made = Differences::default();
            let all = (kind.least, kind.greatest);
            made.walk(end, length, all, Pace::Early, &mut edges.random);
            made.put(end + out * beyond, 0);
            edges.unpack_long(kind, &made);
        }
    }
}

pub fn all(kind: Kind, edges: &mut Edges) {
    for group in [
        runs,
        excursions,
        ramps,
        windows,
        bands,
        escapes,
        mixed,
        one_outside,
        jumps,
        apart,
        long_ramps,
    ] {
        group(kind, edges);
    }
}
