//! The speed of the calls on sections: unpacking in BINARY beside unpacking the octets alone, unpacking in BASE64
//! beside a straightforward peer, and the catalogue beside the count.

use super::clock;
use super::valgrind::instructions;
use crate::inputs::{frames, large};
use crate::reference::{pixels, sections};
use std::hint::black_box;

/// Instructions a pixel that unpacking a section in BINARY may take above unpacking its octets.
const MORE_BAR: f64 = 2.0;

/// Instructions an octet that unpacking a section in BASE64 may take: about 5 % above what was measured at the time.
const BASE64_BARS: [(&str, f64); 4] = [
    ("base64_detector", 50.6),
    ("base64_noise", 50.9),
    ("base64_strong", 56.6),
    ("base64_u16", 30.9),
];

/// The catalogue reads the file twice: it may take the instructions of so many counts, and one more for each byte
/// that it writes.
const CATALOGUE_BAR: f64 = 2.0;

/// How often each of two calls has its turn, and how often it is timed then.
const ROUNDS: usize = 6;
const TIMES: usize = 5;

const SECTIONS: usize = 512;
const CATALOGUE: usize = 8 + 64 * SECTIONS;

struct Input {
    file: Vec<u8>,
    element_type: u8,
    byte_offset: bool,
    octets: Vec<u8>,
    pixels: Vec<i64>,
}

fn many_sections() -> Input {
    Input {
        file: large::sections(SECTIONS),
        element_type: 6,
        byte_offset: true,
        octets: Vec::new(),
        pixels: Vec::new(),
    }
}

/// The file `sections`, or one with a section: its encoding and its frame. u16 is detector-like and uncompressed, the
/// others are s32 and byte offset.
fn input(name: &str) -> Input {
    let (base64, frame) = match name.split_once('_') {
        Some((encoding, frame)) => (encoding == "base64", frame),
        None => (false, name),
    };
    let (kind, element_type, byte_offset) = match frame {
        "detector" | "noise" | "strong" => (frame, 6, true),
        "u16" => ("detector", 3, false),
        "sections" => return many_sections(),
        _ => panic!("sections, or binary or base64 with detector, noise, strong or u16"),
    };
    let pixels = frames::frame(kind, element_type);
    let octets = if byte_offset {
        pixels::pack(element_type, &pixels, usize::MAX).unwrap()
    } else {
        let width = pixels::range(element_type).unwrap().2;
        let octets = |pixel: &i64| pixel.to_le_bytes().into_iter().take(width);
        pixels.iter().flat_map(octets).collect()
    };
    Input {
        file: large::section(base64, byte_offset, element_type, pixels.len(), &octets),
        element_type,
        byte_offset,
        octets,
        pixels,
    }
}

/// One call, that many times; the best time of one, in nanoseconds.
pub fn run(who: &str, call: &str, name: &str, times: usize) -> f64 {
    let input = input(name);
    let file = &input.file;
    let mut pixels = vec![0; input.pixels.len()];
    let mut out = vec![0; CATALOGUE];
    let mut best = f64::INFINITY;
    for _ in 0..times {
        let (length, time) = clock::timed(|| match (who, call) {
            ("ours", "unpack") => mooringelm::unpack(black_box(file), 1, &mut pixels).ok(),
            ("plain", "unpack") => sections::unpack(black_box(file), 1, &mut pixels).ok(),
            ("ours", "unpack_octets") => mooringelm::unpack_octets(
                input.element_type,
                input.byte_offset.into(),
                black_box(&input.octets),
                input.pixels.len(),
                &mut pixels,
            )
            .ok(),
            ("ours", "catalogue") => mooringelm::catalogue(black_box(file), &mut out).ok(),
            ("ours", "count") => mooringelm::count(black_box(file)).ok(),
            _ => panic!("ours unpack, unpack_octets, catalogue or count, or plain unpack"),
        });
        best = best.min(time);
        let expected = match call {
            "catalogue" => CATALOGUE,
            "count" => SECTIONS,
            _ => input.pixels.len(),
        };
        assert_eq!(length, Some(expected), "{who} {call} {name}");
    }
    if times > 0 && call.starts_with("unpack") {
        assert!(pixels == input.pixels, "{who} {call} {name}: not the frame");
    }
    best
}

/// What a call takes: instructions, where there is valgrind, and nanoseconds.
struct Cost {
    instructions: Option<f64>,
    nanoseconds: f64,
}

/// Both calls on a file, timed in turn. Instructions are the difference of two repeat counts, so that set-up falls out.
fn costs(calls: [(&str, &str); 2], name: &str) -> [Cost; 2] {
    let mut best = [f64::INFINITY; 2];
    for turn in 0..2 * ROUNDS {
        let at = (turn + turn / 2) % 2;
        let (who, call) = calls[at];
        best[at] = best[at].min(run(who, call, name, TIMES));
    }
    [0, 1].map(|at| {
        let (who, call) = calls[at];
        let count = |times| instructions(&[who, call, name], times);
        let instructions = || Some((count(3)? - count(1)?) / 2.0);
        Cost {
            instructions: instructions(),
            nanoseconds: best[at],
        }
    })
}

/// Prints a row: the instructions of both calls and what they are to each other, nanoseconds of both; each divided by
/// `units`.
fn row(
    name: &str,
    units: f64,
    costs: [Cost; 2],
    compared: fn(f64, f64) -> f64,
) -> Option<[f64; 2]> {
    let times = costs.each_ref().map(|cost| cost.nanoseconds / units);
    let times = format!("{:.2} | {:.2}", times[0], times[1]);
    let [Some(one), Some(other)] = costs.map(|cost| cost.instructions) else {
        println!("| {name} | no valgrind | | | {times} |");
        return None;
    };
    let (one, other) = (one / units, other / units);
    let third = compared(one, other);
    println!("| {name} | {one:.2} | {other:.2} | {third:.2} | {times} |");
    Some([one, third])
}

/// Whether the bar is met; it is where there is no valgrind.
fn met(what: &str, value: Option<f64>, bar: f64) -> bool {
    let met = value.is_none_or(|value| value <= bar);
    if !met {
        println!("NOT MET: {what} is above {bar}");
    }
    met
}

fn measure_binary() -> bool {
    println!(
        "| mel_unpack, BINARY, a pixel | instructions | mel_unpack_octets | more | nanoseconds \
        | mel_unpack_octets |"
    );
    println!("|---|---|---|---|---|---|");
    let mut all = true;
    for name in ["binary_detector", "binary_noise", "binary_strong"] {
        let costs = costs([("ours", "unpack"), ("ours", "unpack_octets")], name);
        let counts = row(name, frames::PIXELS as f64, costs, |one, other| one - other);
        let more = counts.map(|[_, more]| more);
        all &= met(
            &format!("what mel_unpack {name} takes more"),
            more,
            MORE_BAR,
        );
    }
    all
}

fn measure_base64() -> bool {
    println!(
        "| mel_unpack, BASE64, an octet | instructions | plain | ratio | nanoseconds | plain |"
    );
    println!("|---|---|---|---|---|---|");
    let mut all = true;
    for (name, bar) in BASE64_BARS {
        let costs = costs([("ours", "unpack"), ("plain", "unpack")], name);
        let octets = input(name).octets.len();
        let counts = row(name, octets as f64, costs, |one, other| one / other);
        let an_octet = counts.map(|[an_octet, _]| an_octet);
        all &= met(&format!("mel_unpack {name}"), an_octet, bar);
    }
    all
}

fn measure_catalogue() -> bool {
    println!("| mel_catalogue, a section | instructions | mel_count | in counts, less 1 a byte | nanoseconds \
        | mel_count |");
    println!("|---|---|---|---|---|---|");
    let costs = costs([("ours", "catalogue"), ("ours", "count")], "sections");
    let in_counts = |catalogue, count| (catalogue - CATALOGUE as f64 / SECTIONS as f64) / count;
    let counts = row("sections", SECTIONS as f64, costs, in_counts);
    let in_counts = counts.map(|[_, in_counts]| in_counts);
    met("mel_catalogue in counts", in_counts, CATALOGUE_BAR)
}

pub fn measure() -> bool {
    let met = [measure_binary(), measure_base64(), measure_catalogue()];
    !met.contains(&false)
}
