//! NULL with a length of 0 against another pointer with a length of 0, for every pointer of every function: the answer
//! and all else that is lent have to be the same.

use super::differ;
use crate::inputs::vectors;
use crate::reference::reader::{self, Section};
use mooringelm::raw::{self, Answer};
use std::fmt::Debug;
use std::ptr;

/// How a pointer and its length are passed: all of the memory, none of it, or NULL and 0.
#[derive(Clone, Copy, Debug, PartialEq)]
enum Lent {
    Whole,
    Empty,
    Null,
}

use Lent::{Empty, Null, Whole};

fn read<T>(memory: &[T], lent: Lent) -> (*const T, usize) {
    match lent {
        Whole => (memory.as_ptr(), memory.len()),
        Empty => (memory.as_ptr(), 0),
        Null => (ptr::null(), 0),
    }
}

fn written<T>(memory: &mut [T], lent: Lent) -> (*mut T, usize) {
    match lent {
        Whole => (memory.as_mut_ptr(), memory.len()),
        Empty => (memory.as_mut_ptr(), 0),
        Null => (ptr::null_mut(), 0),
    }
}

/// All ways to pass so many pointers.
fn ways<const N: usize>() -> impl Iterator<Item = [Lent; N]> {
    let way = |number: usize, at| [Whole, Empty, Null][number / 3usize.pow(at as u32) % 3];
    (0..3usize.pow(N as u32)).map(move |number| std::array::from_fn(|at| way(number, at)))
}

/// Vectors that are longer are not taken, nor their sections beyond so many.
const LONGEST: usize = 4_096;
const SECTIONS: usize = 8;

/// Memory before a call.
const OCTET: u8 = 0xa5;
const PIXEL: i64 = -77;

/// The functions, and whether a call with NULL can go without a refusal: without a file none can, and a catalogue takes
/// 8 bytes at least.
const FUNCTIONS: [(&str, bool); 9] = [
    ("mel_count", false),
    ("mel_section", false),
    ("mel_octets", false),
    ("mel_unpack", true),
    ("mel_listing", true),
    ("mel_catalogue", false),
    ("mel_replace", true),
    ("mel_pack", true),
    ("mel_unpack_octets", true),
];

/// Calls, and those that were not refused, by function.
#[derive(Default)]
struct Tally([[usize; 2]; FUNCTIONS.len()]);

impl Tally {
    /// Calls with one NULL and more, each beside the same with other pointers. A call gives its refusal, and its
    /// answer with the memory that it may have written to.
    fn check<const N: usize, A: PartialEq + Debug>(
        &mut self,
        name: &str,
        call: impl Fn([Lent; N]) -> (u32, A),
    ) {
        let at = FUNCTIONS.iter().position(|function| function.0 == name);
        let [calls, answered] = &mut self.0[at.expect("one of nine")];
        for way in ways::<N>().filter(|way| way.contains(&Null)) {
            let other = way.map(|lent| if lent == Null { Empty } else { lent });
            let (with_null, without) = (call(way), call(other));
            if with_null != without {
                differ(format!(
                    "{name} {way:?}: {with_null:?}, and not {without:?}"
                ));
            }
            *calls += 2;
            *answered += 2 * usize::from(with_null.0 == 0);
        }
    }

    /// Tells what was met, and how many calls there were; the run ends where too little was.
    fn show(&self) -> usize {
        print!("NULL with 0; function, calls, not refused:");
        for ((name, _), [calls, answered]) in FUNCTIONS.iter().zip(self.0) {
            print!(" {name} {calls}, {answered};");
        }
        println!();
        let met = |((_, some), [calls, answered]): (&(&str, bool), [usize; 2])| {
            calls > 0 && (answered > 0) == *some
        };
        if !FUNCTIONS.iter().zip(self.0).all(met) {
            println!("NOT ENOUGH: a function is not called, or not answered as it can be");
            std::process::exit(1);
        }
        self.0.iter().map(|[calls, _]| calls).sum()
    }
}

// In each function below the calls are sound: a pointer is valid for the length that is passed with it, and what may be
// written to is a function's own.

/// Room for what is written of a file without a frame.
const ROOM: usize = 2_048;

fn whole_file(file: &[u8], tally: &mut Tally) {
    tally.check("mel_count", |[lent]: [Lent; 1]| {
        let (file, length) = read(file, lent);
        let answer = unsafe { raw::mel_count(file, length) };
        (answer.refusal, answer)
    });
    type Writes = unsafe extern "C" fn(*const u8, usize, *mut u8, usize) -> Answer;
    let functions: [(&str, Writes); 2] = [
        ("mel_listing", raw::mel_listing),
        ("mel_catalogue", raw::mel_catalogue),
    ];
    for (name, function) in functions {
        tally.check(name, |[file_lent, out_lent]: [Lent; 2]| {
            let mut out = vec![OCTET; ROOM];
            let ((file, length), (to, room)) = (read(file, file_lent), written(&mut out, out_lent));
            let answer = unsafe { function(file, length, to, room) };
            (answer.refusal, (answer, out))
        });
    }
}

/// The calls on the section with that number, where there is one or not.
fn one_section(file: &[u8], number: usize, section: Option<&Section>, tally: &mut Tally) {
    tally.check("mel_section", |[lent]: [Lent; 1]| {
        let (file, length) = read(file, lent);
        let answer = unsafe { raw::mel_section(file, length, number) };
        (answer.refusal, answer)
    });
    tally.check("mel_octets", |[lent]: [Lent; 1]| {
        let (file, length) = read(file, lent);
        let answer = unsafe { raw::mel_octets(file, length, number) };
        (answer.refusal, answer)
    });
    let frame = section.map_or(Vec::new(), |s| {
        vectors::frame(s.element_type, s.elements, number, 2)
    });
    tally.check("mel_unpack", |[file_lent, lent]: [Lent; 2]| {
        let mut pixels = vec![PIXEL; frame.len() + 1];
        let ((file, length), (to, room)) = (read(file, file_lent), written(&mut pixels, lent));
        let answer = unsafe { raw::mel_unpack(file, length, number, to, room) };
        (answer.refusal, (answer, pixels))
    });
    tally.check(
        "mel_replace",
        |[file_lent, frame_lent, out_lent]: [Lent; 3]| {
            let mut out = vec![OCTET; mooringelm::replaced_limit(file.len(), frame.len())];
            let ((file, length), (to, room)) = (read(file, file_lent), written(&mut out, out_lent));
            let (from, count) = read(&frame, frame_lent);
            let answer = unsafe { raw::mel_replace(file, length, number, from, count, to, room) };
            (answer.refusal, (answer, out))
        },
    );
}

fn files(tally: &mut Tally) {
    for file in vectors::files() {
        if file.len() > LONGEST {
            continue;
        }
        let sections = reader::read(&file).unwrap_or_default();
        whole_file(&file, tally);
        for number in 0..=(sections.len() + 1).min(SECTIONS) {
            let section = number.checked_sub(1).and_then(|index| sections.get(index));
            one_section(&file, number, section, tally);
        }
    }
}

/// Octets and pixels alone, of each type and of two that are none; of no pixels and of two.
fn pixels(tally: &mut Tally) {
    let (octets, frame) = ([5, 0x80, 0xc8, 0], [5, 205]);
    for element_type in 0..=7 {
        for frame in [&frame[..0], &frame] {
            tally.check("mel_pack", |[frame_lent, out_lent]: [Lent; 2]| {
                let mut out = vec![OCTET; 15 * frame.len() + 1];
                let ((from, count), (to, room)) =
                    (read(frame, frame_lent), written(&mut out, out_lent));
                let answer = unsafe { raw::mel_pack(element_type, from, count, to, room) };
                (answer.refusal, (answer, out))
            });
        }
        for (compression, count) in [(0, 0), (0, 1), (0, 2), (1, 0), (1, 2), (2, 0)] {
            tally.check("mel_unpack_octets", |[lent, out_lent]: [Lent; 2]| {
                let mut pixels = vec![PIXEL; count + 1];
                let ((from, length), (to, room)) =
                    (read(&octets, lent), written(&mut pixels, out_lent));
                let answer = unsafe {
                    raw::mel_unpack_octets(element_type, compression, from, length, count, to, room)
                };
                (answer.refusal, (answer, pixels))
            });
        }
    }
}

/// Compares all calls, and tells how many there were.
pub fn all() -> usize {
    let mut tally = Tally::default();
    files(&mut tally);
    pixels(&mut tally);
    tally.show()
}
