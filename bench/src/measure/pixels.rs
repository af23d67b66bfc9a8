//! The speed of packing and unpacking pixels, beside plain Rust: each call on frames of several kinds and types.
//!
//! Times are of the thread, the least of many rounds; each round takes the frames in a new order, and the calls on
//! each.

use super::bars::bar;
use super::clock;
use super::valgrind::instructions;
use crate::inputs::frames::{self, Size};
use crate::inputs::random::Random;
use crate::reference::pixels::{self, TYPES};
use std::hint::black_box;
use std::path::{Path, PathBuf};

/// Frames of 487 × 619 pixels, and their types.
const SMALL: [(&str, &[&str]); 5] = [
    ("detector", &TYPES),
    ("noise", &TYPES),
    ("strong", &["s32", "u16"]),
    ("sparse", &["u8", "u16", "u32"]),
    ("mask", &["s32", "u16", "u32"]),
];

/// Frames of 2463 × 2527 pixels: only timed.
const LARGE: [(&str, &[&str]); 5] = [
    ("detector", &["s32"]),
    ("noise", &["s32"]),
    ("strong", &["s32", "u16"]),
    ("sparse", &["u16"]),
    ("mask", &["u32"]),
];

const SMALL_ROUNDS: usize = 80;
const LARGE_ROUNDS: usize = 12;

/// `pack` has room for 15 octets a pixel, `pack_exact` for as many as are written.
const CALLS: [&str; 3] = ["unpack", "pack", "pack_exact"];
const WHO: [&str; 2] = ["ours", "plain"];

/// Each call by each side.
const WAYS: usize = CALLS.len() * WHO.len();

fn way(number: usize) -> (&'static str, &'static str) {
    (WHO[number % WHO.len()], CALLS[number / WHO.len()])
}

fn type_number(name: &str) -> u8 {
    let at = TYPES.iter().position(|&t| t == name);
    1 + at.expect("an element type") as u8
}

struct Frame {
    element_type: u8,
    pixels: Vec<i64>,
    octets: Vec<u8>,
}

impl Frame {
    fn new(kind: &str, element_type: u8, size: Size) -> Self {
        let pixels = frames::sized(kind, element_type, size);
        let octets = pixels::pack(element_type, &pixels, usize::MAX).unwrap();
        Frame {
            element_type,
            pixels,
            octets,
        }
    }

    /// Writes the frame for the runs that valgrind counts: making it there would take longer than the call.
    fn write(&self, path: &Path) {
        let mut bytes = (self.pixels.len() as u64).to_le_bytes().to_vec();
        bytes.extend(self.pixels.iter().flat_map(|pixel| pixel.to_le_bytes()));
        bytes.extend(&self.octets);
        std::fs::write(path, bytes).expect("room in the folder for temporary files");
    }

    fn read(element_type: u8, path: &str) -> Self {
        let bytes = std::fs::read(path).expect("a frame that `write` wrote");
        let number = |part: &[u8]| i64::from_le_bytes(part.try_into().expect("eight bytes"));
        let (count, rest) = bytes.split_at(8);
        let (pixels, octets) = rest.split_at(8 * number(count) as usize);
        Frame {
            element_type,
            pixels: pixels.chunks_exact(8).map(number).collect(),
            octets: octets.to_vec(),
        }
    }
}

/// Memory that the calls write to.
struct Lent {
    pixels: Vec<i64>,
    octets: Vec<u8>,
}

impl Lent {
    /// For as many pixels; it is touched here, and not first by a call.
    fn new(count: usize) -> Self {
        Lent {
            pixels: vec![-7; count],
            octets: vec![7; 15 * count],
        }
    }

    /// What no call leaves, where one is to leave the frame.
    fn spoil(&mut self, frame: &Frame) {
        self.pixels[..frame.pixels.len()].fill(i64::MIN);
        self.octets[..frame.octets.len()].fill(0x80);
    }

    /// Whether a call left the frame here.
    fn holds(&self, what: &str, frame: &Frame) -> bool {
        match what {
            "unpack" => self.pixels[..frame.pixels.len()] == frame.pixels[..],
            _ => self.octets[..frame.octets.len()] == frame.octets[..],
        }
    }
}

fn call(who: &str, what: &str, frame: &Frame, lent: &mut Lent) -> bool {
    let (kind, count, size) = (frame.element_type, frame.pixels.len(), frame.octets.len());
    let (pixels, octets) = (black_box(&frame.pixels[..]), black_box(&frame.octets[..]));
    let unpacked = &mut lent.pixels[..count];
    let room = if what == "pack_exact" {
        size
    } else {
        15 * count
    };
    let packed = &mut lent.octets[..room];
    match (who, what) {
        ("ours", "unpack") => {
            mooringelm::unpack_octets(kind, 1, octets, count, unpacked) == Ok(count)
        }
        ("plain", "unpack") => pixels::peer::unpack(kind, octets, count, unpacked) == Ok(count),
        ("ours", "pack" | "pack_exact") => mooringelm::pack(kind, pixels, packed) == Ok(size),
        ("plain", "pack" | "pack_exact") => pixels::peer::pack(kind, pixels, packed) == Ok(size),
        _ => panic!("ours or plain, and unpack, pack or pack_exact"),
    }
}

/// One call on a frame that was written, that many times: what valgrind counts. What the calls leave is looked at in
/// `time_round`.
pub fn run(who: &str, what: &str, element_type: &str, path: &str, times: usize) {
    let frame = Frame::read(type_number(element_type), path);
    let mut lent = Lent::new(frame.pixels.len());
    for _ in 0..times {
        assert!(call(who, what, &frame, &mut lent), "{who} {what} {path}");
    }
}

/// Instructions a pixel of each way: what one call takes above none.
fn count_instructions(frame: &Frame, element_type: &str, path: &Path) -> Option<[f64; WAYS]> {
    frame.write(path);
    let path = path.to_str().expect("a path in plain characters");
    let count = |number, times| {
        let (who, what) = way(number);
        instructions(&["pixels", who, what, element_type, path], times)
    };
    let none = count(0, 0)?;
    let mut counts = [0.0; WAYS];
    for (number, found) in counts.iter_mut().enumerate() {
        *found = (count(number, 1)? - none) / frame.pixels.len() as f64;
    }
    Some(counts)
}

/// Numbers below n in a new order.
fn shuffled(n: usize, random: &mut Random) -> Vec<usize> {
    let mut order: Vec<usize> = (0..n).collect();
    for at in (1..n).rev() {
        order.swap(at, random.below(at + 1));
    }
    order
}

/// Times every way once on a frame; where asked, looks at what it leaves.
fn time_round(
    frame: &Frame,
    lent: &mut Lent,
    look: bool,
    random: &mut Random,
    best: &mut [f64; WAYS],
) {
    for number in shuffled(WAYS, random) {
        let (who, what) = way(number);
        if look {
            lent.spoil(frame);
        }
        let (right, time) = clock::timed(|| call(who, what, frame, lent));
        assert!(right, "{who} {what}: another length");
        assert!(
            !look || lent.holds(what, frame),
            "{who} {what}: not the frame"
        );
        best[number] = best[number].min(time / frame.pixels.len() as f64);
    }
}

/// Nanoseconds a pixel of each way, for each frame.
fn time(all: &[Frame], rounds: usize) -> Vec<[f64; WAYS]> {
    let mut random = Random::new(31);
    let count = all.iter().map(|frame| frame.pixels.len()).max();
    let mut lent = Lent::new(count.expect("a frame"));
    let mut best = vec![[f64::INFINITY; WAYS]; all.len()];
    for round in 0..rounds {
        for at in shuffled(all.len(), &mut random) {
            time_round(&all[at], &mut lent, round == 0, &mut random, &mut best[at]);
        }
    }
    best
}

/// Kinds with types, each pair alone.
fn pairs(kinds: &[(&'static str, &[&'static str])]) -> Vec<(&'static str, &'static str)> {
    let of_kind = |&(kind, types): &(&'static str, &[&'static str])| {
        types.iter().map(move |&t| (kind, t)).collect::<Vec<_>>()
    };
    kinds.iter().flat_map(of_kind).collect()
}

fn make(pairs: &[(&str, &str)], size: Size) -> Vec<Frame> {
    let new = |&(kind, name): &(&str, &str)| Frame::new(kind, type_number(name), size);
    pairs.iter().map(new).collect()
}

fn octets_a_pixel(frame: &Frame) -> f64 {
    frame.octets.len() as f64 / frame.pixels.len() as f64
}

/// Instructions, bar and nanoseconds of the library, instructions and nanoseconds of plain, the ratio of times.
fn cells(counts: Option<[f64; 2]>, bar: f64, times: [f64; 2]) -> String {
    let [time, plain] = times;
    let ratio = time / plain;
    match counts {
        Some([ours, theirs]) => {
            format!("{ours:.2} | {bar} | {time:.2} | {theirs:.2} | {plain:.2} | {ratio:.2}")
        }
        None => format!("no valgrind | {bar} | {time:.2} | | {plain:.2} | {ratio:.2}"),
    }
}

/// Whether the bars are met.
fn measure_small() -> bool {
    println!(
        "| call | frame | type | octets a pixel | instructions a pixel | bar | nanoseconds | plain: instructions \
        | nanoseconds | ratio of times |"
    );
    println!("|---|---|---|---|---|---|---|---|---|---|");
    let pairs = pairs(&SMALL);
    let all = make(&pairs, frames::SMALL);
    let times = time(&all, SMALL_ROUNDS);
    let path = temporary();
    let count = |(frame, pair): (&Frame, &(&str, &str))| count_instructions(frame, pair.1, &path);
    let counts: Vec<_> = all.iter().zip(&pairs).map(count).collect();
    _ = std::fs::remove_file(&path);
    let mut met = true;
    for (index, what) in CALLS.into_iter().enumerate() {
        let both = |ways: [f64; WAYS]| [ways[2 * index], ways[2 * index + 1]];
        for (at, &(kind, name)) in pairs.iter().enumerate() {
            let (bar, counts) = (bar(what, kind, name), counts[at].map(both));
            let octets = octets_a_pixel(&all[at]);
            let cells = cells(counts, bar, both(times[at]));
            println!("| {what} | {kind} | {name} | {octets:.3} | {cells} |");
            if counts.is_some_and(|counts| counts[0] > bar) {
                println!("NOT MET: {what} {kind} {name} is above {bar}");
                met = false;
            }
        }
    }
    met
}

/// A file of this process.
fn temporary() -> PathBuf {
    std::env::temp_dir().join(format!("bench-frame-{}", std::process::id()))
}

fn time_large() {
    let (width, height) = frames::LARGE;
    println!("| call, {width} × {height} | frame | type | octets a pixel | nanoseconds a pixel | plain | ratio |");
    println!("|---|---|---|---|---|---|---|");
    let pairs = pairs(&LARGE);
    let all = make(&pairs, frames::LARGE);
    let times = time(&all, LARGE_ROUNDS);
    for (index, what) in CALLS.into_iter().enumerate() {
        for (at, (kind, name)) in pairs.iter().enumerate() {
            let (ours, plain) = (times[at][2 * index], times[at][2 * index + 1]);
            let (octets, ratio) = (octets_a_pixel(&all[at]), ours / plain);
            println!(
                "| {what} | {kind} | {name} | {octets:.3} | {ours:.2} | {plain:.2} | {ratio:.2} |"
            );
        }
    }
}

/// Whether the bars are met; they are where there is no valgrind.
pub fn measure() -> bool {
    let met = measure_small();
    time_large();
    met
}
