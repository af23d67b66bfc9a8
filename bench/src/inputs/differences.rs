//! Element types with their ends, and octets put together difference by difference: what drives loops to their edges.

use super::random::Random;
use crate::reference::pixels;

/// An element type.
#[derive(Clone, Copy)]
pub struct Kind {
    pub number: u8,
    pub least: i64,
    pub greatest: i64,
    pub octets: usize,
}

impl Kind {
    pub fn new(number: u8) -> Self {
        let (least, greatest, octets) = pixels::range(number).unwrap();
        Kind {
            number,
            least,
            greatest,
            octets,
        }
    }

    pub fn has(&self, pixel: i64) -> bool {
        self.least <= pixel && pixel <= self.greatest
    }

    pub fn cut(&self, pixel: i64) -> i64 {
        pixel.clamp(self.least, self.greatest)
    }

    pub fn middle(&self) -> i64 {
        (self.least + self.greatest) / 2
    }

    /// Its least and its greatest pixel, each with the direction out of the type.
    pub fn ends(&self) -> [(i64, i64); 2] {
        [(self.least, -1), (self.greatest, 1)]
    }

    /// The least and the greatest sizes of the differences that take 3, 7 and 15 octets, as far as the type has any.
    pub fn wide(&self) -> &'static [(i64, i64)] {
        let sizes = &[
            (1 << 7, (1 << 15) - 1),
            (1 << 15, (1 << 31) - 1),
            (1 << 31, (1 << 32) - 1),
        ];
        &sizes[..[1, 2, 3][self.octets / 2]]
    }

    /// A pixel that differs from the last one by one of these sizes; whatever the last one is, there is one.
    pub fn jump(&self, last: i64, (least, greatest): (i64, i64), random: &mut Random) -> i64 {
        let up = (last + least, (last + greatest).min(self.greatest));
        let down = ((last - greatest).max(self.least), last - least);
        let (from, to) = match (up.0 <= up.1, down.0 <= down.1) {
            (true, true) => [up, down][random.below(2)],
            (true, false) => up,
            _ => down,
        };
        match random.below(6) {
            0 => from,
            1 => to,
            _ => between(from, to, random),
        }
    }

    /// A pixel that differs from the last one by at most that much.
    pub fn step(&self, last: i64, most: i64, random: &mut Random) -> i64 {
        self.cut(between(last - most, last + most, random))
    }
}

pub fn between(from: i64, to: i64, random: &mut Random) -> i64 {
    from + random.below((to - from + 1) as usize) as i64
}

/// How a walk goes: anywhere, to its goal at once, to its goal as late as may be, or by small steps.
#[derive(Clone, Copy)]
pub enum Pace {
    Any,
    Early,
    Late,
    Small,
}

pub const PACES: [Pace; 4] = [Pace::Any, Pace::Early, Pace::Late, Pace::Small];

/// Octets put together difference by difference, and the pixel that they lead to.
#[derive(Clone, Default)]
pub struct Differences {
    pub octets: Vec<u8>,
    pub count: usize,
    pub last: i64,
}

impl Differences {
    /// The first pixel.
    pub fn at(pixel: i64) -> Self {
        let mut made = Differences::default();
        made.put(pixel, 0);
        made
    }

    /// In as few octets as may be from that width on: 0 to 3 for 1, 3, 7 and 15 octets.
    pub fn put(&mut self, pixel: i64, narrowest: usize) {
        pixels::put_difference(pixel - self.last, narrowest, &mut self.octets);
        self.last = pixel;
        self.count += 1;
    }

    /// One octet for each of n pixels; the last one is `to`, the others are from low to high.
    pub fn walk(
        &mut self,
        to: i64,
        n: usize,
        (low, high): (i64, i64),
        pace: Pace,
        random: &mut Random,
    ) {
        for left in (0..n as i64).rev() {
            let from = (self.last - 127).max(to - 127 * left);
            let until = (self.last + 127).min(to + 127 * left);
            let (from, until) = match left {
                0 => (from, until),
                _ => (from.max(low), until.min(high)),
            };
            assert!(from <= until, "{to} is too far for {n} octets");
            let wish = match pace {
                Pace::Any => between(from, until, random),
                Pace::Early => to,
                Pace::Late => self.last,
                Pace::Small => self.last + between(-4, 4, random),
            };
            self.put(wish.clamp(from, until), 0);
        }
    }

    /// The same pixel again, n times.
    pub fn rest(&mut self, n: usize) {
        for _ in 0..n {
            self.put(self.last, 0);
        }
    }

    /// Small steps inside the type.
    pub fn quiet(&mut self, n: usize, kind: Kind, random: &mut Random) {
        for _ in 0..n {
            self.put(kind.step(self.last, 4, random), 0);
        }
    }
}
