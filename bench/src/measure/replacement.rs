//! The speed of replacing one frame in a file of 256 MiB: what it takes above packing the frame alone into exact room,
//! beside memcpy of the file.

use super::{clock, valgrind};
use crate::inputs::{frames, large};
use crate::reference::replacement::{self, Edit};
use crate::reference::{pixels, reader};
use std::hint::black_box;

/// Instructions above packing the frame that may not be passed, in those of memcpy of the file.
const BAR: f64 = 1.2;

/// As many as fit.
const FRAMES: usize = 43;
const FILE: usize = 268_435_456;

/// Which frames are replaced: an early one, the middle one, the last one.
const NUMBERS: [usize; 3] = [2, FRAMES.div_ceil(2), FRAMES];

const PAGE: usize = 4_096;

/// How often a call is timed.
const TIMES: usize = 7;

/// A file, a new frame for each of its sections, how many octets that one takes, and memory that was touched.
struct Input {
    file: Vec<u8>,
    frame: Vec<i64>,
    packed: usize,
    out: Vec<u8>,
}

fn input() -> Input {
    let (width, height) = frames::LARGE;
    let mut frame = frames::large();
    let mut octets = vec![0; 15 * frame.len()];
    let size = pixels::peer::pack(6, &frame, &mut octets).expect("pixels of s32");
    let all = std::iter::repeat_n(&octets[..size], FRAMES);
    let file = large::exposures(width, height, all);
    let one_more = file.len() + file.len() / FRAMES;
    assert!(file.len() <= FILE && one_more > FILE, "{}", file.len());
    // The beam stop: a rectangle that is not to be used.
    for line in frame.chunks_mut(width).skip(height / 2).take(60) {
        line[width / 2..width / 2 + 50].fill(-1);
    }
    let packed = pixels::peer::pack(6, &frame, &mut octets).expect("pixels of s32");
    let mut out = vec![0; file.len() + 1_000 + 15 * frame.len()];
    out.iter_mut().step_by(PAGE).for_each(|byte| *byte = 1);
    Input {
        file,
        frame,
        packed,
        out,
    }
}

/// `memcpy`, `pack`, or the number of the frame to replace.
fn call(input: &mut Input, call: &str) -> Option<usize> {
    let (file, frame) = (black_box(&input.file), black_box(&input.frame));
    let out = black_box(&mut input.out);
    match call {
        "memcpy" => {
            out[..file.len()].copy_from_slice(file);
            Some(file.len())
        }
        // A frame that is replaced is packed into a place of its size, not into room for 15 octets a pixel.
        "pack" => mooringelm::pack(6, frame, &mut out[..input.packed]).ok(),
        number => mooringelm::replace(file, number.parse().expect("a number"), frame, out).ok(),
    }
}

/// One call, that many times: what valgrind counts. The answers are looked at in `nanoseconds`.
pub fn run(what: &str, times: usize) {
    let mut input = input();
    for _ in 0..times {
        assert!(call(&mut input, what).is_some(), "{what}");
    }
}

/// The best times of memcpy, of packing and of each replacement, taken in turn.
fn nanoseconds(input: &mut Input) -> [f64; 2 + NUMBERS.len()] {
    let mut best = [f64::INFINITY; 2 + NUMBERS.len()];
    for _ in 0..TIMES {
        for (what, best) in calls().iter().zip(&mut best) {
            let (answer, time) = clock::timed(|| call(input, what));
            *best = best.min(time);
            assert!(answer.is_some(), "{what}");
        }
    }
    best
}

fn calls() -> [String; 2 + NUMBERS.len()] {
    let [early, middle, last] = NUMBERS.map(|number| number.to_string());
    ["memcpy".into(), "pack".into(), early, middle, last]
}

/// What is measured is what the reference writes.
fn check(input: &mut Input) {
    for number in NUMBERS {
        let length = call(input, &number.to_string());
        let read = reader::read(&input.file);
        let edit: Edit =
            replacement::edit(&input.file, &read, number, &input.frame).expect("a frame that fits");
        let right = length.is_some_and(|length| edit.gives(&input.file, &input.out[..length]));
        assert!(right, "replace {number}: not the reference's file");
    }
}

/// Instructions of a call: what two of them take above none, so that set-up, the same for all, falls out.
fn instructions() -> Option<[f64; 2 + NUMBERS.len()]> {
    let none = valgrind::instructions(&["replacement", "none"], 0)?;
    let mut counts = [0.0; 2 + NUMBERS.len()];
    for (what, count) in calls().iter().zip(&mut counts) {
        *count = (valgrind::instructions(&["replacement", what], 2)? - none) / 2.0;
    }
    Some(counts)
}

/// Whether the bar is met; it is where there is no valgrind.
pub fn measure() -> bool {
    let mut input = input();
    check(&mut input);
    let (width, height) = frames::LARGE;
    println!(
        "mel_replace in {} bytes, {FRAMES} frames of {width} × {height}; a byte of the file:",
        input.file.len()
    );
    println!(
        "| frame | instructions above mel_pack | memcpy | ratio | nanoseconds above mel_pack | memcpy | ratio |"
    );
    println!("|---|---|---|---|---|---|---|");
    let times = nanoseconds(&mut input).map(|time| time / input.file.len() as f64);
    let counts = instructions().map(|counts| counts.map(|c| c / input.file.len() as f64));
    let mut met = true;
    for (index, number) in NUMBERS.iter().enumerate() {
        let row = |[memcpy, pack, replace @ ..]: [f64; 2 + NUMBERS.len()]| {
            let above = replace[index] - pack;
            let ratio = above / memcpy;
            (ratio, format!("{above:.4} | {memcpy:.4} | {ratio:.3}"))
        };
        let counted = counts.map(row);
        let shown = counted
            .as_ref()
            .map_or("no valgrind | |", |(_, shown)| shown);
        println!("| {number} | {shown} | {} |", row(times).1);
        if counted.as_ref().is_some_and(|(ratio, _)| *ratio > BAR) {
            println!("NOT MET: replacing frame {number} takes more than {BAR} of memcpy above packing it");
            met = false;
        }
    }
    met
}
