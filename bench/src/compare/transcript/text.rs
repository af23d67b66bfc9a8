//! What a side says of files, as one text: vectors/README.md tells its lines. Nothing but the side's own answers goes
//! into it, so that the library's transcript of any files is had without the reference.

use super::side::{Octets, Pixels, Side};
use crate::inputs::vectors::frame;
use crate::reference::pixels::{range, TYPES};
use crate::reference::reader::Refusal;

/// Room of the calls, in bytes and in pixels.
const ROOM: usize = 262_144;

/// Room of the listing, which is long where many sections stand in a block with a long name.
const LISTING_ROOM: usize = 4_194_304;

/// Of a file with more sections, the first ones only are asked for.
const SOME: usize = 4;

/// What a section's frame has to fit.
struct Shape {
    element_type: u8,
    elements: usize,
}

impl Shape {
    /// By the section's line in the listing; none where it is no such line, which the comparison then shows.
    fn listed(line: &str) -> Option<Shape> {
        let words: Vec<&str> = line.split(' ').collect();
        let index = TYPES.iter().position(|name| words.get(5) == Some(name))?;
        Some(Shape {
            element_type: 1 + index as u8,
            elements: words[3].parse().ok()?,
        })
    }

    fn frame(&self, number: usize, style: usize) -> Vec<i64> {
        frame(self.element_type, self.elements, number, style)
    }

    fn greatest(&self) -> i64 {
        range(self.element_type).expect("one of six").1
    }
}

fn refused((number, place): &Refusal) -> String {
    format!("refused {number} at {place}")
}

/// Of octets, or of pixels plus 2^31.
fn hash(numbers: impl Iterator<Item = u32>) -> u32 {
    numbers.fold(0u32, |h, number| h.wrapping_mul(31).wrapping_add(number))
}

fn octet_words(octets: &Octets) -> String {
    octets.as_ref().map_or_else(refused, |octets| {
        let hash = hash(octets.iter().map(|&octet| octet.into()));
        format!("length {} hash {hash}", octets.len())
    })
}

fn pixel_words(pixels: &Pixels) -> String {
    pixels.as_ref().map_or_else(refused, |pixels| {
        let hash = hash(pixels.iter().map(|&pixel| (pixel + (1 << 31)) as u32));
        format!("pixels {} hash {hash}", pixels.len())
    })
}

/// The text so far, and how many calls it took.
#[derive(Default)]
pub struct Transcript {
    pub text: String,
    pub calls: usize,
}

impl Transcript {
    fn line(&mut self, words: &str) {
        self.text += words;
        self.text += "\n";
    }

    /// The line of a call that gives octets.
    fn octets(&mut self, words: &str, answer: Octets) -> Octets {
        self.calls += 1;
        self.line(&format!("{words} {}", octet_words(&answer)));
        answer
    }

    /// The line of a call that gives pixels.
    fn pixels(&mut self, words: &str, answer: Pixels) {
        self.calls += 1;
        self.line(&format!("{words} {}", pixel_words(&answer)));
    }

    /// The lines of a call that writes: with room, and where it wrote also with room for one byte less.
    fn written(&mut self, words: &str, write: impl Fn(usize) -> Octets) -> Octets {
        let octets = self.octets(words, write(ROOM))?;
        let short = write(octets.len().saturating_sub(1));
        let _ = self.octets(&format!("{words} short"), short);
        Ok(octets)
    }
}

/// One file, and what its lines are added to.
struct Case<'c> {
    side: &'c dyn Side,
    file: &'c [u8],
    sections: Vec<Shape>,
    says: &'c mut Transcript,
}

impl Case<'_> {
    /// The listing, from which the sections' shapes are known, and the catalogue.
    fn whole(&mut self) {
        let (side, file) = (self.side, self.file);
        self.says.calls += 1;
        match side.listing(file, LISTING_ROOM) {
            Err(refusal) => self.says.line(&refused(&refusal)),
            Ok(listing) => {
                let listing = String::from_utf8_lossy(&listing);
                self.sections = listing.lines().filter_map(Shape::listed).collect();
                self.says.text += &listing;
            }
        }
        let _ = self
            .says
            .written("catalogue", |room| side.catalogue(file, room));
    }

    /// What reading the section with that number gives, where there is one or not.
    fn read(&mut self, number: usize) {
        let octets = self.side.octets(self.file, number);
        let _ = self.says.octets(&format!("octets {number}"), octets);
        let pixels = self.side.unpack(self.file, number, ROOM);
        self.says.pixels(&format!("unpack {number}"), pixels);
    }

    fn replace(&mut self, number: usize, words: &str, frame: &[i64]) {
        let answer = self.side.replace(self.file, number, frame, ROOM);
        let _ = self
            .says
            .octets(&format!("replace {number}{words}"), answer);
    }

    /// A number that no section has.
    fn missing(&mut self, number: usize) {
        self.read(number);
        self.replace(number, "", &[]);
    }

    fn style(&mut self, number: usize, style: usize, frame: &[i64]) {
        let (side, file) = (self.side, self.file);
        let words = format!("{number} style {style}");
        let write = |room| side.replace(file, number, frame, room);
        if let Ok(new) = self.says.written(&format!("replace {words}"), write) {
            let pixels = side.unpack(&new, number, ROOM);
            self.says.pixels(&format!("read back {words}"), pixels);
        }
    }

    /// Frames that do not fit, made of the one of style 2.
    fn unfit(&mut self, number: usize, mut frame: Vec<i64>, greatest: i64) {
        frame.push(0);
        self.replace(number, " long", &frame);
        frame.pop();
        if let Some(last) = frame.last_mut() {
            *last = greatest + 1;
            self.replace(number, " outside", &frame);
        }
    }

    fn section(&mut self, number: usize) {
        self.read(number);
        let shape = &self.sections[number - 1];
        let (elements, greatest) = (shape.elements, shape.greatest());
        let frames = [1, 2].map(|style| shape.frame(number, style));
        if elements > 0 {
            let short = self.side.unpack(self.file, number, elements - 1);
            self.says.pixels(&format!("unpack {number} short"), short);
        }
        self.style(number, 1, &frames[0]);
        self.style(number, 2, &frames[1]);
        let [_, small] = frames;
        self.unfit(number, small, greatest);
    }

    /// Section i replaced, and then section j of that file.
    fn order(&mut self, i: usize, j: usize) {
        let [first, second] = [i, j].map(|number| self.sections[number - 1].frame(number, 1));
        let words = format!("order {i} {j}");
        self.says.calls += 1;
        match self.side.replace(self.file, i, &first, ROOM) {
            Err(_) => self.says.line(&format!("{words} not made")),
            Ok(new) => {
                let answer = self.side.replace(&new, j, &second, ROOM);
                let _ = self.says.octets(&words, answer);
            }
        }
    }

    fn orders(&mut self) {
        let count = self.sections.len();
        if count < 2 {
            return;
        }
        for (i, j) in [(1, 2), (2, 1), (2, count), (count, 2)] {
            if i != j {
                self.order(i, j);
            }
        }
    }

    fn lines(&mut self) {
        self.whole();
        let count = self.sections.len();
        self.missing(0);
        self.missing(count + 1);
        for number in 1..=count.min(SOME) {
            self.section(number);
        }
        self.orders();
    }
}

/// The side's transcript of these files.
pub fn of(side: &dyn Side, files: &[Vec<u8>]) -> Transcript {
    let mut says = Transcript::default();
    for (index, file) in files.iter().enumerate() {
        says.line(&format!("case {} length {}", index + 1, file.len()));
        let mut case = Case {
            side,
            file,
            sections: Vec::new(),
            says: &mut says,
        };
        case.lines();
    }
    says
}
