//! The headers of a section.

use super::{refusal, Refusal, FILE_LIMIT};
use crate::reference::pixels::{range, PIXEL_LIMIT};

/// A header line's name and the text after its colon.
pub fn split_header(line: &[u8]) -> Option<(&[u8], &[u8])> {
    let is_name = |b: &u8| b.is_ascii_alphanumeric() || *b == b'-';
    let length = line.iter().position(|b| !is_name(b))?;
    let (name, rest) = line.split_at(length);
    let text = rest.strip_prefix(b":")?;
    (!name.is_empty()).then_some((name, text))
}

/// What the headers of a section say together.
pub struct Headers {
    pub base64: bool,
    pub size: usize,
    pub elements: usize,
    pub byte_offset: bool,
    pub element_type: u8,
    pub id: u32,
    pub dimensions: [u32; 3],
}

/// The known headers, and what number each makes of its value; none for a bad value.
type Meaning = fn(&[u8]) -> Option<usize>;
const KNOWN: [(&[u8], Meaning); 10] = [
    (b"Content-Transfer-Encoding", |v| {
        word(v, &[b"BINARY", b"BASE64"])
    }),
    (b"X-Binary-Size", |v| number(v, 0, FILE_LIMIT)),
    (b"X-Binary-Number-of-Elements", |v| {
        number(v, 0, PIXEL_LIMIT)
    }),
    (b"Content-Type", compression),
    (b"X-Binary-Element-Type", |v| word(bare(v), &ELEMENT_TYPES)),
    (b"X-Binary-Element-Byte-Order", |v| {
        word(bare(v), &[b"LITTLE_ENDIAN"])
    }),
    (b"X-Binary-ID", |v| number(v, 1, i32::MAX as usize)),
    (b"X-Binary-Size-Fastest-Dimension", dimension),
    (b"X-Binary-Size-Second-Dimension", dimension),
    (b"X-Binary-Size-Third-Dimension", dimension),
];

const ELEMENT_TYPES: [&[u8]; 6] = [
    b"unsigned 8-bit integer",
    b"signed 8-bit integer",
    b"unsigned 16-bit integer",
    b"signed 16-bit integer",
    b"unsigned 32-bit integer",
    b"signed 32-bit integer",
];

/// Which of the words it is.
fn word(value: &[u8], words: &[&[u8]]) -> Option<usize> {
    words.iter().position(|w| w.eq_ignore_ascii_case(value))
}

fn number(value: &[u8], least: usize, greatest: usize) -> Option<usize> {
    if value.is_empty() || value.len() > 10 || !value.iter().all(u8::is_ascii_digit) {
        return None;
    }
    let number = value
        .iter()
        .fold(0, |n, digit| 10 * n + usize::from(digit - b'0'));
    (least..=greatest).contains(&number).then_some(number)
}

fn dimension(value: &[u8]) -> Option<usize> {
    number(value, 1, PIXEL_LIMIT)
}

/// Without its pair of quotes, where it has one.
fn bare(value: &[u8]) -> &[u8] {
    match value {
        [b'"', inner @ .., b'"'] => inner,
        _ => value,
    }
}

/// 1 for byte offset, 0 for none.
fn compression(value: &[u8]) -> Option<usize> {
    let mut found = 0;
    let mut quoted = false;
    let parts = value.split(|&b| {
        quoted ^= b == b'"';
        b == b';' && !quoted
    });
    for part in parts.skip(1) {
        let mut sides = part.splitn(2, |&b| b == b'=');
        let name = sides.next()?.trim_ascii();
        if name.eq_ignore_ascii_case(b"conversions") {
            let method = bare(sides.next()?.trim_ascii());
            if found == 1 || !method.eq_ignore_ascii_case(b"x-CBF_BYTE_OFFSET") {
                return None;
            }
            found = 1;
        }
    }
    (!quoted).then_some(found)
}

/// The known headers met so far, and the first of them at fault: that is told only when all have been met.
#[derive(Default)]
pub struct Found {
    numbers: [Option<usize>; KNOWN.len()],
    fault: Option<Refusal>,
}

impl Found {
    pub fn take(&mut self, place: usize, name: &[u8], value: &[u8]) {
        let is_it = |(known, _): &(&[u8], Meaning)| known.eq_ignore_ascii_case(name);
        let Some(which) = KNOWN.iter().position(is_it) else {
            return;
        };
        let number = KNOWN[which].1(value);
        if number.is_none() || self.numbers[which].is_some() {
            self.fault.get_or_insert(refusal(6, place));
        }
        self.numbers[which] = number;
    }

    pub fn headers(self, empty_line: usize) -> Result<Headers, Refusal> {
        if let Some(fault) = self.fault {
            return Err(fault);
        }
        let [encoding, size, elements, compression, element_type, _, id, dimensions @ ..] =
            self.numbers;
        let (Some(encoding), Some(size), Some(elements)) = (encoding, size, elements) else {
            return Err(refusal(6, empty_line));
        };
        let headers = Headers {
            base64: encoding == 1,
            size,
            elements,
            byte_offset: compression == Some(1),
            element_type: 1 + element_type.unwrap_or(4) as u8,
            id: id.unwrap_or(0) as u32,
            dimensions: dimensions.map(|d| d.unwrap_or(0) as u32),
        };
        if !headers.counts_agree() {
            return Err(refusal(7, empty_line));
        }
        Ok(headers)
    }
}

impl Headers {
    fn counts_agree(&self) -> bool {
        let right_size = if self.byte_offset {
            (self.elements..=15 * self.elements).contains(&self.size)
        } else {
            let (_, _, width) = range(self.element_type).expect("one of six");
            self.size == width * self.elements
        };
        let elements = self.elements as u128;
        // The product of three may pass 64 bits.
        let right_dimensions = match self.dimensions.map(u128::from) {
            [0, second, third] => second == 0 && third == 0,
            [fastest, 0, third] => third == 0 && fastest == elements,
            [fastest, second, third] => fastest * second * third.max(1) == elements,
        };
        right_size && right_dimensions
    }
}
