//! Replacements whose result is as long as a file may be, and one byte longer; the fields of sections at far places;
//! the frame that packs to the most octets.

use super::sections::check_fields;
use super::{calls, differ};
use crate::reference::pixels::PIXEL_LIMIT;
use crate::reference::reader::{self, Refusal, FILE_LIMIT};
use crate::reference::replacement;
use mooringelm::raw::Answer;

/// Room beyond the limit.
const MORE: usize = 64;

const CANARY: [u8; 4_096] = [0xa5; 4_096];

const ELEMENTS: usize = 100;

const IDENTIFIER: &[u8] = b"###CBF: VERSION 1.5\r\n";

const OFFSET: &str = "Content-Type: x; conversions=x-CBF_BYTE_OFFSET\r\n";

/// A section's text up to its octets, the marker included.
fn head(first_headers: &str, size: usize, elements: usize) -> Vec<u8> {
    let text = format!(
        ";\r\n--CIF-BINARY-FORMAT-SECTION--\r\n{first_headers}Content-Transfer-Encoding: BINARY\r\n\
        X-Binary-Size: {size}\r\nX-Binary-Number-of-Elements: {elements}\r\n\r\n"
    );
    [text.as_bytes(), reader::MARKER].concat()
}

/// What closes a section, from the line end after its octets on.
fn closing() -> Vec<u8> {
    [b"\r\n", reader::CLOSING, b"\r\n;\r\n"].concat()
}

/// A file of that length: a section of a hundred octets, and two long ones. All octets are 0 and are not touched.
fn file(length: usize) -> Vec<u8> {
    let heads = |last: usize| {
        let small = "X-Binary-Element-Type: unsigned 8-bit integer\r\n";
        [
            (head(small, ELEMENTS, ELEMENTS), ELEMENTS),
            (head(OFFSET, 1_000_000_000, PIXEL_LIMIT), 1_000_000_000),
            (head(OFFSET, last, last / 10), last),
        ]
    };
    let closing = closing();
    let long = |last: usize| {
        let sections = heads(last).map(|(head, size)| head.len() + size + closing.len());
        IDENTIFIER.len() + sections.iter().sum::<usize>()
    };
    // Any number of eight digits takes as many characters.
    let last = 50_000_000 + length - long(50_000_000);
    let mut file = vec![0; length];
    let mut at = IDENTIFIER.len();
    file[..at].copy_from_slice(IDENTIFIER);
    for (head, size) in heads(last) {
        file[at..at + head.len()].copy_from_slice(&head);
        at += head.len() + size;
        file[at..at + closing.len()].copy_from_slice(&closing);
        at += closing.len();
    }
    file
}

fn untouched(memory: &[u8]) -> bool {
    memory
        .chunks(CANARY.len())
        .all(|part| part == &CANARY[..part.len()])
}

/// Differs where a call did not answer what it is to, or memory is not what it is to be.
fn check(call: &str, got: Answer, expected: Result<usize, Refusal>, memory: bool) {
    if got != calls::answer(expected) || !memory {
        differ(format!("{call}: {got:?}, and not {expected:?}, or memory"));
    }
}

fn check_refused(file: &[u8], frame: &[i64], out: &mut [u8], room: usize, refusal: Refusal) {
    let got = calls::replace(file, 1, frame, &mut out[..room]);
    let call = format!("replace in {} bytes, room {room}", file.len());
    check(&call, got, Err(refusal), untouched(out));
}

/// Compares both calls on the frame that packs to the most octets: 15 for each of as many pixels as a section may have,
/// each as far from the one before as its type allows. Room for an octet less is 15, and a pixel more is 14.
fn most_octets() -> usize {
    const MOST: usize = 15 * PIXEL_LIMIT;
    let signed = format!("{OFFSET}X-Binary-Element-Type: signed 32-bit integer\r\n");
    let head = head(&signed, PIXEL_LIMIT, PIXEL_LIMIT);
    let file = [IDENTIFIER, &head, &vec![0; PIXEL_LIMIT], &closing()].concat();
    let ends = [i64::from(i32::MIN), i64::from(i32::MAX)];
    let mut frame: Vec<i64> = (0..PIXEL_LIMIT).map(|i| ends[i % 2]).collect();
    let edit = replacement::edit(&file, &reader::read(&file), 1, &frame).expect("it fits");
    let length = edit.length(&file);
    let mut out = vec![CANARY[0]; length + MORE];
    check_refused(&file, &frame, &mut out, length - 1, (15, 0));
    let got = calls::pack(6, &frame, &mut out[..MOST - 1]);
    let call = "pack to the most octets";
    check(call, got, Err((15, 0)), untouched(&out));
    let got = calls::pack(6, &frame, &mut out[..MOST]);
    let octets = &edit.form[edit.form.len() - 2 - reader::CLOSING.len() - MOST..][..MOST];
    let memory = &out[..MOST] == octets && untouched(&out[MOST..]);
    check(call, got, Ok(MOST), memory);
    let got = calls::replace(&file, 1, &frame, &mut out);
    let memory = edit.gives(&file, &out[..length]) && untouched(&out[length..]);
    check("replace to the most octets", got, Ok(length), memory);
    frame.push(0);
    out.fill(CANARY[0]);
    check_refused(&file, &frame, &mut out, length, (14, 0));
    let got = calls::pack(6, &frame, &mut out);
    check("pack a pixel too many", got, Err((14, 0)), untouched(&out));
    6
}

/// How much longer the file is with the frame replaced: the same for every length.
fn growth(frame: &[i64]) -> usize {
    let file = file(FILE_LIMIT - 10_000);
    let edit = replacement::edit(&file, &reader::read(&file), 1, frame).expect("it fits");
    edit.length(&file) - file.len()
}

/// Compares all calls, and tells how many there were.
pub fn all() -> usize {
    let frame: Vec<i64> = (0..ELEMENTS as i64).map(|i| i % 2 * 255).collect();
    let longest = FILE_LIMIT - growth(&frame);
    let mut out = vec![CANARY[0]; FILE_LIMIT + MORE];
    for length in [longest + 1, FILE_LIMIT] {
        check_refused(&file(length), &frame, &mut out, FILE_LIMIT + MORE, (15, 0));
    }
    let file = file(longest);
    check_refused(&file, &frame, &mut out, FILE_LIMIT - 1, (15, 0));
    let read = reader::read(&file);
    for number in 0..=4 {
        check_fields(&file, &read, number);
    }
    let edit = replacement::edit(&file, &read, 1, &frame).expect("it fits");
    let got = calls::replace(&file, 1, &frame, &mut out);
    let memory = edit.gives(&file, &out[..FILE_LIMIT]) && untouched(&out[FILE_LIMIT..]);
    check("replace to the longest file", got, Ok(FILE_LIMIT), memory);
    drop((file, out));
    4 + 2 * 5 + most_octets()
}
