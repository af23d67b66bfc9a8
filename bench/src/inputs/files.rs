//! Files by chance: good ones, and some with a slip.

mod headers;

use super::contents::content;
use super::random::Random;

const OPENING: &str = "--CIF-BINARY-FORMAT-SECTION--";
const CLOSING: &str = "--CIF-BINARY-FORMAT-SECTION----";
const MARKER: &[u8] = b"\x0c\x1a\x04\xd5";
const LINE_ENDS: [&[u8]; 3] = [b"\r\n", b"\r", b"\n"];
const LETTERS: &[u8; 64] = b"ABCDEFGHIJKLMNOPQRSTUVWXYZabcdefghijklmnopqrstuvwxyz0123456789+/";

pub const ELEMENT_TYPES: [&str; 6] = [
    "unsigned 8-bit integer",
    "signed 8-bit integer",
    "unsigned 16-bit integer",
    "signed 16-bit integer",
    "unsigned 32-bit integer",
    "signed 32-bit integer",
];

struct Maker<'a> {
    random: &'a mut Random,
    out: Vec<u8>,
    /// Which of the line ends; 3 for a mixture.
    line_ends: usize,
}

/// A file by the rules, but for a slip now and then.
pub fn good(random: &mut Random) -> Vec<u8> {
    let line_ends = random.below(4);
    let mut maker = Maker {
        random,
        out: Vec::new(),
        line_ends,
    };
    maker.file();
    maker.out
}

impl Maker<'_> {
    fn one_in(&mut self, n: usize) -> bool {
        self.random.below(n) == 0
    }

    fn pick<'t>(&mut self, choices: &[&'t str]) -> &'t str {
        choices[self.random.below(choices.len())]
    }

    fn line(&mut self, text: &str) {
        // A 10 after a 13 would not end a line of its own.
        let joins = text.is_empty() && self.out.last() == Some(&b'\r');
        let end = match self.line_ends {
            3 if joins => self.random.below(2),
            3 => self.random.below(3),
            2 if joins => 1,
            same => same,
        };
        self.out.extend_from_slice(text.as_bytes());
        self.out.extend_from_slice(LINE_ENDS[end]);
    }

    /// Blanks, at most that many.
    fn blanks(&mut self, most: usize) -> String {
        let n = self.random.below(most + 1);
        (0..n)
            .map(|_| if self.one_in(4) { '\t' } else { ' ' })
            .collect()
    }

    fn any_case(&mut self, text: &str) -> String {
        match self.random.below(6) {
            0 => text.to_ascii_lowercase(),
            1 => text.to_ascii_uppercase(),
            2 => text
                .chars()
                .map(|c| match self.random.below(2) {
                    0 => c.to_ascii_lowercase(),
                    _ => c.to_ascii_uppercase(),
                })
                .collect(),
            _ => text.into(),
        }
    }

    /// Characters 33 to 126, or with blanks between them; the first is a letter.
    fn text(&mut self, length: usize, blanks: bool) -> String {
        (0..length)
            .map(|at| match self.random.below(8) {
                _ if at == 0 => 'x',
                0 if blanks => ' ',
                1 if blanks => [' ', '\t'][self.random.below(2)],
                _ => (33 + self.random.below(94) as u8) as char,
            })
            .collect()
    }

    fn file(&mut self) {
        let blanks = match self.random.below(200) {
            0 => " ".repeat(60 + self.random.below(20)),
            _ => " ".to_string() + &self.blanks(3),
        };
        let version = self.pick(&["0.7", "1.0", "1.5", "1.3.2", "0.0", "1.9 and more"]);
        let identifier = match self.random.below(300) {
            0 => "##CBF: VERSION",
            1 => "###CBF: Version",
            2 => "###CBF:  VERSION",
            _ => "###CBF: VERSION",
        };
        self.line(&format!("{identifier}{blanks}{version}"));
        if self.one_in(200) {
            return self.many_sections();
        }
        for _ in 0..self.random.below(7) {
            self.words();
            self.section();
        }
        self.words();
        if self.one_in(3) {
            while matches!(self.out.last(), Some(b'\r' | b'\n')) {
                self.out.pop();
            }
        }
    }

    /// Text between sections.
    fn words(&mut self) {
        for _ in 0..self.random.below(9) {
            if self.one_in(6) {
                self.text_field();
            } else {
                let line = self.word_line();
                self.line(&line);
            }
        }
    }

    fn word_line(&mut self) -> String {
        let length = self.random.below(60);
        match self.random.below(13) {
            0 => String::new(),
            1 => format!("# {}", self.text(length, true)),
            2 | 3 => self.block_line(),
            4 => self
                .pick(&[" data_no", "x data_no", "data-no", "dat"])
                .into(),
            5 => self.pick(&[OPENING, CLOSING, "-", "###CBF"]).into(),
            6 => self.text(80, true),
            7 if self.one_in(60) => self.text(81, true),
            8 if self.one_in(80) => "a\u{1}b".into(),
            9 => format!("{} {}", self.random.next(), self.random.below(999)),
            10 => self.pick(&["loop_", "_array_data.data", " ;", "\t"]).into(),
            _ => self.text(length, true),
        }
    }

    fn block_line(&mut self) -> String {
        let length = match self.random.below(8) {
            0 => 0,
            1 => 30 + self.random.below(5),
            2 => 70 + self.random.below(6),
            _ => 1 + self.random.below(12),
        };
        let word = self.any_case("data_");
        let name = self.text(length, false);
        let rest = self.pick(&["", "", " ", "\tx", " more"]);
        let mut line = word + &name + rest;
        line.truncate(80);
        line
    }

    fn text_field(&mut self) {
        match self.random.below(4) {
            0 => self.line(";"),
            1 => {
                let blanks = self.blanks(5);
                self.line(&format!(";{blanks}"));
            }
            2 => self.line("; x"),
            _ => {
                let text = self.text(20, true);
                self.line(&format!(";{text}"));
                self.line(OPENING);
            }
        }
        if self.one_in(4) {
            // After a bare `;`, a boundary but for a little.
            let near = self.pick(&[" ", "-", "x"]);
            let line = match self.random.below(3) {
                0 => format!("{near}{OPENING}"),
                1 => format!("{OPENING}{near}"),
                _ => OPENING.to_ascii_lowercase(),
            };
            self.line(&line);
        } else if self.one_in(2) {
            self.line("text");
        }
        for _ in 0..self.random.below(4) {
            let line = self.word_line();
            self.line(if line == OPENING { CLOSING } else { &line });
        }
        if !self.one_in(400) {
            let end = self.pick(&[";", ";", "; data_no", ";;", "; \t"]);
            self.line(end);
        }
    }

    fn section(&mut self) {
        let base64 = self.one_in(2);
        let byte_offset = self.one_in(2);
        let element_type = 1 + self.random.below(6);
        let (octets, elements) = content(element_type as u8, byte_offset, self.random);
        let mut headers = self.needed_headers(base64, octets.len(), elements);
        self.other_headers(&mut headers, byte_offset, element_type, elements);
        if self.one_in(20) {
            self.slip(&mut headers);
        }
        for last in (1..headers.len()).rev() {
            headers.swap(last, self.random.below(last + 1));
        }
        let blanks = self.blanks(2);
        self.line(&format!(";{blanks}"));
        self.line(OPENING);
        for (name, value) in &headers {
            self.header(name, value);
        }
        self.line("");
        if base64 {
            self.base64(&octets);
        } else {
            self.binary(&octets);
        }
        self.closing();
    }

    fn closing(&mut self) {
        let right = !self.one_in(150);
        self.line(if right { CLOSING } else { OPENING });
        let blanks = match self.random.below(60) {
            0 => " ".repeat(79 + self.random.below(2)),
            1 => self.blanks(79),
            2 if self.one_in(3) => "x".into(),
            _ => self.blanks(1),
        };
        self.line(&format!(";{blanks}"));
    }

    /// 512 is the limit.
    fn many_sections(&mut self) {
        for _ in 0..510 + self.random.below(6) {
            self.line(";");
            self.line(OPENING);
            for (name, value) in self.needed_headers(false, 0, 0) {
                self.line(&format!("{name}:{value}"));
            }
            self.line("");
            self.out.extend_from_slice(MARKER);
            self.line("");
            self.line(CLOSING);
            self.line(";");
        }
    }

    fn binary(&mut self, octets: &[u8]) {
        let marker: &[u8] = match self.random.below(150) {
            0 => b"",
            1 => &MARKER[..3],
            _ => MARKER,
        };
        self.out.extend_from_slice(marker);
        self.out.extend_from_slice(octets);
        match self.random.below(150) {
            0 => self.out.push(b'x'),
            1 => _ = self.out.pop(),
            _ => {}
        }
        self.line("");
    }

    fn base64(&mut self, octets: &[u8]) {
        let mut text = base64_text(octets);
        match self.random.below(120) {
            0 => text.push('A'),
            1 => text.push('='),
            2 => _ = text.pop(),
            3 => text.insert(self.random.below(text.len() + 1), '='),
            4 => text.insert(self.random.below(text.len() + 1), '-'),
            5 => text.push_str("A==="),
            6 => text.push_str("===="),
            _ => {}
        }
        self.base64_lines(&text);
    }

    /// The text in lines of one length or of many, with blanks between its letters and empty lines, or without.
    fn base64_lines(&mut self, mut text: &str) {
        let width = [76, 80, 1 + self.random.below(80), 1][self.random.below(4)];
        let (many, blanks) = (self.one_in(4), self.random.below(10));
        let crowded = 1 + self.random.below(4);
        let often = [7, 40, 400][self.random.below(3)];
        while !text.is_empty() {
            let width = if many {
                1 + self.random.below(80)
            } else {
                width
            };
            let (part, rest) = text.split_at(width.min(text.len()));
            text = rest;
            let line = match blanks {
                0 => self.with_blanks(part, crowded),
                1 => self.with_blanks(part, 40),
                _ => part.into(),
            };
            self.line(&line);
            if self.one_in(often) {
                let blanks = self.blanks(2);
                self.line(&blanks);
            }
        }
    }

    /// With blanks before about one in so many letters, as far as the line has room.
    fn with_blanks(&mut self, part: &str, often: usize) -> String {
        let mut room = 80 - part.len();
        let mut line = String::new();
        for letter in part.chars() {
            if self.one_in(often) {
                let blanks = self.blanks(room.min(5));
                room -= blanks.len();
                line += &blanks;
            }
            line.push(letter);
        }
        line + &self.blanks(room.min(1))
    }
}

/// Octets as BASE64 letters, without line ends.
pub fn base64_text(octets: &[u8]) -> String {
    let mut text = String::new();
    for group in octets.chunks(3) {
        let bits = (0..3).fold(0, |n, i| n << 8 | usize::from(*group.get(i).unwrap_or(&0)));
        for letter in 0..4 {
            text.push(match letter {
                _ if letter > group.len() => '=',
                _ => LETTERS[bits >> (18 - 6 * letter) & 63] as char,
            });
        }
    }
    text
}
