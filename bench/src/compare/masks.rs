//! What a user does: in a file of forty frames, masks on two of them, in both orders.

use super::differ;
use crate::inputs::frames::{self, HEIGHT, WIDTH};
use crate::inputs::large;
use crate::reference::{pixels, reader, replacement};

const FRAMES: usize = 40;

/// The frames that get a mask, by their numbers, and the mask: its first column and row, its width and height.
const MASKS: [(usize, [usize; 4]); 2] = [(7, [200, 100, 60, 40]), (12, [0, 600, WIDTH, 19])];

/// The library needs little stack: all of this runs with so many bytes of it.
const STACK: usize = 256 * 1_024;

/// The value of pixels that are not to be used.
const MASKED: i64 = -1;

fn masked(frame: &[i64], [column, row, width, height]: [usize; 4]) -> Vec<i64> {
    let mut frame = frame.to_vec();
    for line in frame.chunks_mut(WIDTH).skip(row).take(height) {
        line[column..column + width].fill(MASKED);
    }
    frame
}

/// The library's file with that frame replaced.
fn replaced(file: &[u8], (number, frame): (usize, &[i64])) -> Vec<u8> {
    let mut out = vec![0; file.len() + 1_000 + 15 * frame.len()];
    match mooringelm::replace(file, number, frame, &mut out) {
        Ok(length) => out.truncate(length),
        Err(refusal) => differ(format!("mask on frame {number}: {refusal}")),
    }
    out
}

/// The reference's file with both frames replaced.
fn both_replaced(file: &[u8], new: [(usize, &[i64]); 2]) -> Vec<u8> {
    let read = reader::read(file);
    let edits = new.map(|(number, frame)| replacement::edit(file, &read, number, frame));
    let [Ok(one), Ok(other)] = edits else {
        panic!("two frames that fit");
    };
    replacement::both_made(file, &one, &other)
}

/// Each frame is read back; of those without a mask the octets are the old ones too.
fn check_frames(file: &[u8], result: &[u8], frames: &[Vec<i64>]) {
    let mut pixels = vec![0; WIDTH * HEIGHT];
    for (index, frame) in frames.iter().enumerate() {
        let number = index + 1;
        if mooringelm::unpack(result, number, &mut pixels) != Ok(frame.len()) || &pixels != frame {
            differ(format!("masks: frame {number} is not read back"));
        }
        let changed = mooringelm::octets(result, number) != mooringelm::octets(file, number);
        if changed != MASKS.iter().any(|mask| mask.0 == number) {
            differ(format!("masks: the octets of frame {number}"));
        }
    }
}

/// Compares all calls, and tells how many there were.
pub fn all() -> usize {
    let thread = std::thread::Builder::new().stack_size(STACK).spawn(compare);
    thread.expect("a thread").join().expect("its end")
}

fn compare() -> usize {
    let mut frames: Vec<Vec<i64>> = (0..FRAMES).map(frames::exposure).collect();
    let packed = frames.iter().map(|f| pixels::pack(6, f, usize::MAX));
    let octets: Vec<Vec<u8>> = packed
        .map(|octets| octets.expect("pixels of s32"))
        .collect();
    let file = large::exposures(WIDTH, HEIGHT, octets.iter().map(Vec::as_slice));
    for (number, mask) in MASKS {
        frames[number - 1] = masked(&frames[number - 1], mask);
    }
    let new = MASKS.map(|(number, _)| (number, &frames[number - 1][..]));
    let result = replaced(&replaced(&file, new[0]), new[1]);
    if result != replaced(&replaced(&file, new[1]), new[0]) {
        differ("masks: the two orders differ".into());
    }
    if result != both_replaced(&file, new) {
        differ("masks: the result is not the reference's".into());
    }
    if mooringelm::count(&result) != Ok(FRAMES) {
        differ("masks: the result has other sections".into());
    }
    check_frames(&file, &result, &frames);
    5 + 3 * FRAMES
}
