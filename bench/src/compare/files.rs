//! The library's answers on whole files against the reader's: the vectors, files by chance, and damaged ones.
//! Canaries stand as in pixels.rs.

use super::replacements::{self, Tally as Replacements};
use super::sections::{self, Tally as Sections};
use super::{calls, differ};
use crate::inputs::damage::damage;
use crate::inputs::random::Random;
use crate::inputs::{files, vectors};
use crate::reference::reader::{self, Read, Refusal};
use mooringelm::raw::Answer;

const GOOD: usize = 12_000;
const DAMAGED: usize = 15_000;
const DAMAGED_VECTORS: usize = 8_000;
/// Vectors that are longer are not damaged.
const VECTOR_LIMIT: usize = 20_000;

/// What the reader says of a file: the bytes that a call is to write, or a refusal.
type Said = Result<Vec<u8>, Refusal>;

/// A call of the library that writes bytes.
type Call = fn(&[u8], &mut [u8]) -> Answer;

fn listed(read: &Read) -> Said {
    read.as_ref()
        .map(|sections| reader::listing(sections))
        .map_err(|refusal| *refusal)
}

fn catalogued(read: &Read) -> Said {
    read.as_ref()
        .map_err(|refusal| *refusal)
        .and_then(|sections| reader::catalogue(sections))
}

/// How often each refusal was met, and at 0 how many files had none.
#[derive(Default)]
struct Tally([usize; 12]);

impl Tally {
    fn take(&mut self, read: &Read) {
        self.0[read.as_ref().map_or_else(|r| r.0 as usize, |_| 0)] += 1;
    }
}

fn check_room(call: Call, file: &[u8], said: &Said, room: usize, random: &mut Random) {
    let before: Vec<u8> = (0..room).map(|_| random.next() as u8).collect();
    let mut out = before.clone();
    let got = call(file, &mut out);
    let mut after = before;
    let answer = calls::answer(match said {
        Err(refusal) => Err(*refusal),
        Ok(listing) if listing.len() > room => Err((15, 0)),
        Ok(listing) => {
            after[..listing.len()].copy_from_slice(listing);
            Ok(listing.len())
        }
    });
    if got != answer || out != after {
        let memory = if out == after { "right" } else { "wrong" };
        differ(format!(
            "room {room}: {got:?}, expected {answer:?}, lent memory {memory}; the file is {}",
            file.escape_ascii()
        ));
    }
}

/// Room exact, too small by one, none, and more than enough; tells how many calls.
fn check_rooms(call: Call, file: &[u8], said: &Said, random: &mut Random) -> usize {
    let length = said.as_ref().map_or(0, Vec::len);
    let mut rooms = vec![0, length + 1 + random.below(90)];
    if length > 0 {
        rooms.extend([length, length - 1]);
    }
    for &room in &rooms {
        check_room(call, file, said, room, random);
    }
    rooms.len()
}

/// All calls on a file; tells how many write bytes.
fn check(file: &[u8], read: &Read, random: &mut Random, sections: &mut Sections) -> usize {
    sections::check(file, read, random, sections);
    check_rooms(calls::listing, file, &listed(read), random)
        + check_rooms(calls::catalogue, file, &catalogued(read), random)
}

/// One damage, mostly.
fn damaged(mut file: Vec<u8>, other: &[u8], random: &mut Random) -> Vec<u8> {
    for _ in 0..[1, 1, 1, 2, 4][random.below(5)] {
        file = damage(file, other, random);
    }
    file
}

#[derive(Clone, Copy)]
enum Kind {
    Given,
    Chance,
    Damaged,
}

/// What the files met, by their kind, and where chance stands.
struct Run {
    random: Random,
    tallies: [Tally; 3],
    sections: Sections,
    replacements: Replacements,
}

impl Run {
    fn check(&mut self, file: &[u8], kind: Kind) -> usize {
        let read = reader::read(file);
        self.tallies[kind as usize].take(&read);
        let styles = matches!(kind, Kind::Given);
        let (random, tally) = (&mut self.random, &mut self.replacements);
        replacements::check(file, &read, styles, random, tally);
        check(file, &read, &mut self.random, &mut self.sections)
    }

    /// The empty file, and files of the greatest length and one byte above it: that one is refused before it is
    /// looked at.
    fn lengths(&mut self) -> usize {
        let zeros = vec![0; reader::FILE_LIMIT + 1];
        [0, reader::FILE_LIMIT, reader::FILE_LIMIT + 1]
            .map(|length| self.check(&zeros[..length], Kind::Given))
            .iter()
            .sum()
    }

    fn good(&mut self) -> usize {
        let mut calls = 0;
        for _ in 0..GOOD {
            let file = files::good(&mut self.random);
            calls += self.check(&file, Kind::Chance);
        }
        calls
    }

    fn damaged(&mut self, file: Vec<u8>, other: &[u8]) -> usize {
        let file = damaged(file, other, &mut self.random);
        self.check(&file, Kind::Damaged)
    }

    fn damaged_files(&mut self) -> usize {
        let mut last = Vec::new();
        let mut calls = 0;
        for _ in 0..DAMAGED {
            let file = files::good(&mut self.random);
            calls += self.damaged(file.clone(), &last);
            last = file;
        }
        calls
    }

    fn damaged_vectors(&mut self, files: &[Vec<u8>]) -> usize {
        let small: Vec<&Vec<u8>> = files.iter().filter(|f| f.len() <= VECTOR_LIMIT).collect();
        let mut calls = 0;
        for _ in 0..DAMAGED_VECTORS {
            let file = small[self.random.below(small.len())].clone();
            let other = small[self.random.below(small.len())];
            calls += self.damaged(file, other);
        }
        calls
    }

    /// Tells what the files were; whether they show enough.
    fn show(&self) -> bool {
        let [_, chance, damaged] = &self.tallies;
        print!("{} vectors, {GOOD} files by chance", vectors::COUNT);
        print!(
            " ({} accepted), {} damaged",
            chance.0[0],
            DAMAGED + DAMAGED_VECTORS
        );
        print!(" ({} accepted); refusal -> how often:", damaged.0[0]);
        let times: Vec<usize> = (1..=11).map(|n| chance.0[n] + damaged.0[n]).collect();
        for (index, times) in times.iter().enumerate() {
            print!(" {} -> {times}", index + 1);
        }
        println!();
        let enough = !times.contains(&0) && chance.0[0] >= GOOD / 2;
        if !enough {
            println!("NOT ENOUGH: a refusal from 1 to 11 is not met, or over half of the files by chance are refused");
        }
        enough
    }
}

/// Compares all files, and tells how many calls there were.
pub fn all() -> usize {
    let mut run = Run {
        random: Random::new(3),
        tallies: Default::default(),
        sections: Sections::default(),
        replacements: Replacements::default(),
    };
    let files = vectors::files();
    let mut calls = run.lengths();
    for file in &files {
        calls += run.check(file, Kind::Given);
    }
    calls += run.good() + run.damaged_files() + run.damaged_vectors(&files);
    let enough = [run.show(), run.sections.show(), run.replacements.show()];
    if enough.contains(&false) {
        std::process::exit(1);
    }
    calls + run.sections.calls() + run.replacements.calls()
}
