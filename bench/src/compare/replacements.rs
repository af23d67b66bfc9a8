//! The library's replacements against the reference's. What is lent stands in a longer slice of canaries: all of that
//! is compared, so that a byte before it, after it, or beyond the answer shows.

use super::{calls, differ};
use crate::inputs::chance::pixels;
use crate::inputs::random::Random;
use crate::inputs::vectors::frame;
use crate::reference::pixels::{range, TYPES};
use crate::reference::reader::{self, Read, Refusal, Section};
use crate::reference::replacement::{self, Edit};
use mooringelm::raw::Answer;

/// Canaries on each side of what is lent, at most.
const BESIDE: usize = 64;

/// Of a file with more sections, so many are replaced.
const SOME: usize = 6;

/// What include/mooringelm.h says is always enough: so many bytes above the file's length, and so many for each pixel.
const MORE: usize = 1_000;
const A_PIXEL: usize = 15;

/// What the replacements met.
#[derive(Default)]
pub struct Tally {
    calls: usize,
    /// How often each refusal was met, by its number.
    refused: [usize; 19],
    /// Frames written, by their element type, by whether there is an ID, and by the number of dimensions.
    types: [usize; 6],
    ids: [usize; 2],
    dimensions: [usize; 4],
    /// Frames written over uncompressed octets and over byte offset.
    over: [usize; 2],
    /// Pairs of frames, replaced in both orders.
    orders: usize,
}

impl Tally {
    fn answer(&mut self, answer: Answer) {
        self.calls += 1;
        self.refused[answer.refusal as usize] += 1;
    }

    fn written(&mut self, section: &Section) {
        self.types[usize::from(section.element_type) - 1] += 1;
        self.ids[usize::from(section.id != 0)] += 1;
        self.dimensions[section.dimensions.iter().filter(|&&d| d != 0).count()] += 1;
        self.over[usize::from(section.byte_offset)] += 1;
    }

    /// Tells what was met; whether it shows enough.
    pub fn show(&self) -> bool {
        let [uncompressed, byte_offset] = self.over;
        print!("{} of the calls are replacements;", self.calls);
        print!(" frames over uncompressed {uncompressed}, over byte offset {byte_offset};");
        for (name, times) in TYPES.iter().zip(self.types) {
            print!(" {name} {times}");
        }
        print!("; without ID {}, with {};", self.ids[0], self.ids[1]);
        print!(" dimensions -> how often:");
        for (count, times) in self.dimensions.iter().enumerate() {
            print!(" {count} -> {times}");
        }
        let refused = [12, 14, 15, 18].map(|number: usize| self.refused[number]);
        print!("; refusal -> how often:");
        for (number, times) in [12, 14, 15, 18].iter().zip(refused) {
            print!(" {number} -> {times}");
        }
        println!("; in both orders {}", self.orders);
        let parts: [&[usize]; 5] = [
            &self.types,
            &self.ids,
            &self.dimensions,
            &self.over,
            &refused,
        ];
        let enough = !parts.concat().contains(&0) && self.orders > 0;
        if !enough {
            println!("NOT ENOUGH: one of these is never met");
        }
        enough
    }

    pub fn calls(&self) -> usize {
        self.calls
    }
}

/// Bytes by chance.
fn noise(length: usize, random: &mut Random) -> Vec<u8> {
    let words = (0..length.div_ceil(8)).flat_map(|_| random.next().to_le_bytes());
    words.take(length).collect()
}

/// A file, a section's number, the new frame, and what the reference makes of them.
struct Call<'c> {
    file: &'c [u8],
    number: usize,
    frame: &'c [i64],
    expected: Result<Edit, Refusal>,
}

impl<'c> Call<'c> {
    fn new(file: &'c [u8], read: &Read, number: usize, frame: &'c [i64]) -> Self {
        Call {
            file,
            number,
            frame,
            expected: replacement::edit(file, read, number, frame),
        }
    }

    fn differs(&self, what: &str) -> ! {
        differ(format!(
            "replace {} by {:?}: {what}; the file is {}",
            self.number,
            self.frame,
            self.file.escape_ascii()
        ))
    }

    /// Compares the answer and all memory with that much room.
    fn check_room(&self, room: usize, random: &mut Random, tally: &mut Tally) {
        let (before, after) = (1 + random.below(BESIDE), 1 + random.below(BESIDE));
        let mut expected = noise(before + room + after, random);
        let mut memory = expected.clone();
        let got = calls::replace(
            self.file,
            self.number,
            self.frame,
            &mut memory[before..][..room],
        );
        let answer = calls::answer(match &self.expected {
            Err(refusal) => Err(*refusal),
            Ok(edit) if edit.length(self.file) > room => Err((15, 0)),
            Ok(edit) => {
                let result = edit.made(self.file);
                expected[before..][..result.len()].copy_from_slice(&result);
                Ok(result.len())
            }
        });
        tally.answer(answer);
        if got != answer || memory != expected {
            let memory = if memory == expected { "right" } else { "wrong" };
            self.differs(&format!(
                "room {room}, {got:?}, expected {answer:?}, memory {memory}"
            ));
        }
    }

    /// Room one byte short, exact, longer, and any that is too short; for a refusal none and what is always enough.
    fn check(&self, random: &mut Random, tally: &mut Tally) {
        let enough = self.file.len() + MORE + A_PIXEL * self.frame.len();
        // A file of the greatest length is not worth as much memory again.
        let mut rooms = vec![0, enough.min(1 << 20)];
        if let Ok(edit) = &self.expected {
            let length = edit.length(self.file);
            if length > enough {
                self.differs(&format!("room {enough} is not enough for {length}"));
            }
            rooms = vec![
                length - 1,
                length,
                length + 1 + random.below(90),
                random.below(length),
            ];
        }
        for room in rooms {
            self.check_room(room, random, tally);
        }
        self.check_read_back(tally);
    }

    /// The library unpacks from the result what was put there.
    fn check_read_back(&self, tally: &mut Tally) {
        if let Ok(edit) = &self.expected {
            let mut pixels = vec![0; self.frame.len()];
            let answer = calls::unpack(&edit.made(self.file), self.number, &mut pixels);
            tally.answer(answer);
            if answer != calls::answer(Ok(self.frame.len())) || pixels != self.frame {
                self.differs(&format!("read back {answer:?}"));
            }
        }
    }
}

/// The vectors' frame of a style.
fn styled(section: &Section, number: usize, style: usize) -> Vec<i64> {
    frame(section.element_type, section.elements, number, style)
}

/// A frame that the section takes: one of the vectors' styles, or by chance.
fn good_frame(section: &Section, number: usize, random: &mut Random) -> Vec<i64> {
    let (least, greatest, _) = range(section.element_type).expect("one of six");
    match random.below(4) {
        style @ (1 | 2) => styled(section, number, style),
        _ => pixels(section.elements, least, greatest, random),
    }
}

/// One pixel less, none, or one more.
fn wrong_count(mut frame: Vec<i64>, random: &mut Random) -> Vec<i64> {
    match random.below(3) {
        0 if !frame.is_empty() => _ = frame.pop(),
        1 if !frame.is_empty() => frame.clear(),
        _ => frame.push(0),
    }
    frame
}

/// One pixel outside the type, mostly the last one.
fn outside(mut frame: Vec<i64>, section: &Section, random: &mut Random) -> Vec<i64> {
    let (least, greatest, _) = range(section.element_type).expect("one of six");
    let last = frame.len() - 1;
    let at = [last, random.below(frame.len())][random.below(2)];
    frame[at] = [greatest + 1, least - 1, i64::MIN, i64::MAX][random.below(4)];
    frame
}

fn check_section(
    file: &[u8],
    read: &Read,
    (number, section): (usize, &Section),
    frames: &[Vec<i64>],
    random: &mut Random,
    tally: &mut Tally,
) {
    for frame in frames {
        let call = Call::new(file, read, number, frame);
        if call.expected.is_ok() {
            tally.written(section);
        }
        call.check(random, tally);
    }
    let mut wrong = vec![wrong_count(frames[0].clone(), random)];
    if section.elements > 0 {
        wrong.push(outside(frames[0].clone(), section, random));
    }
    for frame in wrong {
        let room = [0, file.len() + 2_000][random.below(2)];
        Call::new(file, read, number, &frame).check_room(room, random, tally);
    }
}

/// Numbers that no section has, with no pixels or a few.
fn check_numbers(file: &[u8], read: &Read, random: &mut Random, tally: &mut Tally) {
    let count = read.as_ref().map_or(0, Vec::len);
    let far = [usize::MAX, (1 << 32) + 1, (1 << 32) + count][random.below(3)];
    for number in [0, count + 1, far] {
        let frame = vec![1; random.below(3)];
        Call::new(file, read, number, &frame).check(random, tally);
    }
}

/// The file that the library makes, with as much room as is always enough.
fn made(file: &[u8], number: usize, frame: &[i64], tally: &mut Tally) -> Vec<u8> {
    let mut out = vec![0; file.len() + MORE + A_PIXEL * frame.len()];
    let answer = calls::replace(file, number, frame, &mut out);
    tally.answer(answer);
    if answer.refusal != 0 {
        differ(format!(
            "order: replace {number} says {answer:?}; the file is {}",
            file.escape_ascii()
        ));
    }
    out.truncate(answer.length as usize);
    out
}

/// A section's number and its new frame.
type New<'n> = (usize, &'n [i64]);

/// What is wrong with the result of replacing two frames.
fn wrong_result(file: &[u8], sections: &[Section], result: &[u8], new: [New; 2]) -> Option<String> {
    for (number, frame) in new {
        let mut pixels = vec![0; frame.len()];
        let expected = calls::answer(Ok(frame.len()));
        if calls::unpack(result, number, &mut pixels) != expected || pixels != frame {
            return Some(format!("frame {number} is not read back"));
        }
    }
    let Ok(after) = reader::read(result) else {
        return Some("the result is refused".into());
    };
    if after.len() != sections.len() {
        return Some("the result has other sections".into());
    }
    let spans =
        |sections: &[Section]| new.map(|(n, _)| (sections[n - 1].boundary, sections[n - 1].end));
    if outside_spans(file, spans(sections)) != outside_spans(result, spans(&after)) {
        return Some("a byte outside the two spans is another".into());
    }
    None
}

/// The bytes before, between and after two spans; the first one stands first.
fn outside_spans(file: &[u8], [first, second]: [(usize, usize); 2]) -> [&[u8]; 3] {
    [
        &file[..first.0],
        &file[first.1..second.0],
        &file[second.1..],
    ]
}

/// Replaces two frames in both orders; the first section stands first.
fn check_orders(
    file: &[u8],
    read: &Read,
    sections: &[Section],
    [one, other]: [usize; 2],
    random: &mut Random,
    tally: &mut Tally,
) {
    let frames = [one, other].map(|n| good_frame(&sections[n - 1], n, random));
    let new: [New; 2] = [(one, &frames[0]), (other, &frames[1])];
    let [first, second] = new.map(|(n, frame)| replacement::edit(file, read, n, frame));
    let (Ok(first), Ok(second)) = (first, second) else {
        panic!("two frames that fit in a short file");
    };
    let expected = replacement::both_made(file, &first, &second);
    let in_order = |numbers: [usize; 2], tally: &mut Tally| {
        let once = made(file, new[numbers[0]].0, new[numbers[0]].1, tally);
        made(&once, new[numbers[1]].0, new[numbers[1]].1, tally)
    };
    let (result, reverse) = (in_order([0, 1], tally), in_order([1, 0], tally));
    let wrong = if result != reverse {
        Some("the two orders differ".into())
    } else if result != expected {
        Some("the result is not the reference's".into())
    } else {
        wrong_result(file, sections, &result, new)
    };
    if let Some(wrong) = wrong {
        differ(format!(
            "order {new:?}: {wrong}; the file is {}",
            file.escape_ascii()
        ));
    }
    tally.orders += 1;
}

/// All pairs of BINARY sections; where there are more than three, of the first, the last and one between.
fn pairs(sections: &[Section], random: &mut Random) -> Vec<[usize; 2]> {
    let numbers = 1..=sections.len();
    let mut binary: Vec<usize> = numbers.filter(|n| !sections[n - 1].base64).collect();
    if let [first, between @ .., last] = &binary[..] {
        if between.len() > 1 {
            binary = vec![*first, between[random.below(between.len())], *last];
        }
    }
    match binary[..] {
        [a, b] => vec![[a, b]],
        [a, b, c] => vec![[a, b], [b, c], [a, c]],
        _ => Vec::new(),
    }
}

/// All sections, or the first, the last, and two by chance.
fn some(count: usize, random: &mut Random) -> Vec<usize> {
    if count <= SOME {
        (1..=count).collect()
    } else {
        let chance = [(); 2].map(|()| 2 + random.below(count - 2));
        vec![1, chance[0], chance[1], count]
    }
}

/// Compares replacements in the file: with `styles`, by both of the vectors' frames, else by one frame a section.
pub fn check(file: &[u8], read: &Read, styles: bool, random: &mut Random, tally: &mut Tally) {
    check_numbers(file, read, random, tally);
    let Ok(sections) = read else {
        return;
    };
    for number in some(sections.len(), random) {
        let section = &sections[number - 1];
        let frames = if styles {
            vec![styled(section, number, 1), styled(section, number, 2)]
        } else {
            vec![good_frame(section, number, random)]
        };
        check_section(file, read, (number, section), &frames, random, tally);
    }
    for pair in pairs(sections, random) {
        check_orders(file, read, sections, pair, random, tally);
    }
}
