//! The speed of reading large files, the library's beside the straightforward reader's.

use super::{clock, valgrind};
use crate::inputs::large;
use crate::reference::reader;
use std::hint::black_box;

/// The library's instructions for one reading of text or of headers may not pass the straightforward reader's times
/// this.
const RATIO_BAR: f64 = 1.0;

/// The library's instructions a BASE64 letter that may not be passed.
const LETTER_BAR: f64 = 15.0;

/// The library's instructions for one reading of a file with 1,000,000,000 octets in BINARY: its headers, and no octet.
const OCTETS_BAR: f64 = 20_000.0;

/// Room for the listing: the program's buffer.
const ROOM: usize = 65_536;

const FILES: [&str; 4] = ["text", "headers", "base64", "octets"];

/// The file, its bytes or letters (or 1), and what refuses it. All but the last are refused at their very end, so
/// that one reading is measured: a listing that is not refused takes two, one to measure it and one to write it.
fn file(name: &str) -> (Vec<u8>, usize, Option<u32>) {
    let refused_in_last_line = |mut file: Vec<u8>| {
        file.extend_from_slice(b"\x01\r\n");
        let length = file.len();
        (file, length, Some(3))
    };
    match name {
        "text" => refused_in_last_line(large::text()),
        "headers" => refused_in_last_line(large::headers()),
        "base64" => (large::base64(1), large::BASE64_LETTERS + 1, Some(10)),
        "octets" => (large::octets(), 1, None),
        _ => panic!("text, headers, base64 or octets"),
    }
}

/// One reading, that many times; the best time of one, in nanoseconds a byte or letter.
pub fn run(who: &str, name: &str, times: usize) -> f64 {
    let (file, units, number) = file(name);
    let mut out = vec![0; ROOM];
    let mut best = f64::INFINITY;
    for _ in 0..times {
        let (refusal, time) = clock::timed(|| match who {
            "ours" => mooringelm::listing(black_box(&file), &mut out)
                .err()
                .map(|r| r.number),
            "plain" => reader::read(black_box(&file)).err().map(|r| r.0),
            _ => panic!("ours or plain"),
        });
        best = best.min(time / units as f64);
        assert_eq!(refusal, number, "{who} {name}");
    }
    best
}

/// Instructions a byte or letter: the difference of two repeat counts, so that set-up falls out.
fn instructions(who: &str, name: &str) -> Option<f64> {
    let count = |times| valgrind::instructions(&[who, name], times);
    Some((count(3)? - count(1)?) / 2.0 / file(name).1 as f64)
}

/// Whether the bar is met, where there is valgrind.
fn row(name: &str) -> bool {
    let unit = match name {
        "base64" => "letter",
        "octets" => "file",
        _ => "byte",
    };
    let times = ["ours", "plain"].map(|who| run(who, name, 20));
    let times = format!("{:.2} | {:.2}", times[0], times[1]);
    let counts = (instructions("ours", name), instructions("plain", name));
    let (Some(ours), Some(plain)) = counts else {
        println!("| {name} | {unit} | no valgrind | | | {times} |");
        return true;
    };
    let ratio = ours / plain;
    println!("| {name} | {unit} | {ours:.2} | {plain:.2} | {ratio:.2} | {times} |");
    let (value, bar) = match name {
        "base64" => (ours, LETTER_BAR),
        "octets" => (ours, OCTETS_BAR),
        _ => (ratio, RATIO_BAR),
    };
    if value > bar {
        println!("NOT MET: reading {name} is above {bar}");
    }
    value <= bar
}

pub fn measure() -> bool {
    println!("| reading | a | instructions | plain | ratio | nanoseconds | plain |");
    println!("|---|---|---|---|---|---|---|");
    let mut met = true;
    for name in FILES {
        met &= row(name);
    }
    met
}
