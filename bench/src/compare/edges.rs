//! The library against the reference where its loops start and end. Canaries stand as in pixels.rs.

mod pack;
mod unpack;

use super::pixels::{check_pack, check_unpack};
use super::sections::{check_room, Pixels};
use crate::inputs::contents::WINDOW;
use crate::inputs::differences::{Differences, Kind};
use crate::inputs::large;
use crate::inputs::random::Random;
use crate::reference::{reader, sections};

/// Compares all calls, and tells how many there were.
pub fn all() -> usize {
    let mut edges = Edges::new();
    for number in 1..=6 {
        pack::all(Kind::new(number), &mut edges);
        unpack::all(Kind::new(number), &mut edges);
    }
    edges.show()
}

/// Calls that were answered, refused for what they were given, and refused for their room.
#[derive(Default)]
struct Tally([usize; 3]);

impl Tally {
    fn take(&mut self, refusal: u32) {
        match refusal {
            0 => self.0[0] += 1,
            15 => self.0[2] += 1,
            _ => self.0[1] += 1,
        }
    }
}

/// The comparison's calls, and where chance stands.
struct Edges {
    random: Random,
    packed: Tally,
    unpacked: Tally,
    text: Tally,
}

impl Edges {
    fn new() -> Self {
        Edges {
            random: Random::new(41),
            packed: Tally::default(),
            unpacked: Tally::default(),
            text: Tally::default(),
        }
    }

    fn pack(&mut self, kind: Kind, frame: &[i64], room: usize) {
        let refusal = check_pack(kind.number, frame, room, &mut self.random);
        self.packed.take(refusal);
    }

    /// Octets alone and, by chance, as a section of BASE64.
    fn unpack(&mut self, kind: Kind, made: &Differences) {
        self.unpack_octets(kind, &made.octets, made.count, made.count);
        if self.random.below(6) == 0 {
            self.unpack_text(kind, &made.octets, made.count);
        }
    }

    /// Many octets, alone.
    fn unpack_long(&mut self, kind: Kind, made: &Differences) {
        self.unpack_octets(kind, &made.octets, made.count, made.count);
    }

    /// As `unpack`, and with octets that run out or remain, with another count, and with too little room.
    fn unpack_and_spoil(&mut self, kind: Kind, made: &Differences) {
        self.unpack(kind, made);
        let (octets, count) = (&made.octets[..], made.count);
        let more = [octets, &[[0x00, 0x80, 0x7f][self.random.below(3)]]].concat();
        let size = octets.len();
        let spoiled = [
            (&octets[..size - 1], count),
            (&octets[..size.saturating_sub(2)], count),
            (&more, count),
            (octets, count - 1),
            (octets, count + 1),
        ];
        for (octets, count) in spoiled {
            self.unpack_octets(kind, octets, count, count);
            if self.random.below(6) == 0 {
                self.unpack_text(kind, octets, count);
            }
        }
        self.unpack_octets(kind, octets, count, count - 1);
        self.unpack_octets(kind, octets, count, count + 3);
    }

    fn unpack_octets(&mut self, kind: Kind, octets: &[u8], count: usize, room: usize) {
        let refusal = check_unpack(kind.number, 1, octets, count, room, &mut self.random);
        self.unpacked.take(refusal);
    }

    /// As a section of BASE64, behind zeros, so that some place of the octets is where a window ends.
    fn unpack_text(&mut self, kind: Kind, octets: &[u8], count: usize) {
        let place = self.random.below(octets.len().min(WINDOW) + 2);
        let zeros = WINDOW * (1 + self.random.below(2)) - place.min(WINDOW);
        let all = [&vec![0; zeros], octets].concat();
        let file = large::section(true, true, kind.number, zeros + count, &all);
        let read = reader::read(&file);
        let pixels: Pixels = match &read {
            Err(refusal) => Err(*refusal),
            Ok(found) => sections::pixels(&file, found, 1),
        };
        let room = zeros + count - usize::from(self.random.below(20) == 0);
        let answer = check_room(&file, &pixels, 1, room, &mut self.random);
        self.text.take(answer.refusal);
    }

    /// Tells what was met, and how many calls there were; the run ends where one of these was never met.
    fn show(&self) -> usize {
        let rows = [
            ("pack", &self.packed.0),
            ("unpack octets", &self.unpacked.0),
            ("unpack BASE64", &self.text.0),
        ];
        print!("at the edges of loops; answered, refused, no room:");
        for (name, [answered, refused, no_room]) in rows {
            print!(" {name} {answered}, {refused}, {no_room};");
        }
        println!();
        if rows.iter().any(|(_, counts)| counts.contains(&0)) {
            println!("NOT ENOUGH: one of these is never met");
            std::process::exit(1);
        }
        rows.iter().flat_map(|(_, counts)| counts.iter()).sum()
    }
}
