//! A file read, its listing and its catalogue.

mod headers;
mod letters;

use super::pixels::TYPES;
use headers::{split_header, Found, Headers};
use letters::Letters;
use std::io::Write;

const LINE_LIMIT: usize = 80;
pub const FILE_LIMIT: usize = 1_073_741_824;
const SECTION_LIMIT: usize = 512;

const IDENTIFIER: &[u8] = b"###CBF: VERSION";
pub const OPENING: &[u8] = b"--CIF-BINARY-FORMAT-SECTION--";
pub const CLOSING: &[u8] = b"--CIF-BINARY-FORMAT-SECTION----";
pub const MARKER: &[u8] = b"\x0c\x1a\x04\xd5";

/// Number and place.
pub type Refusal = (u32, u32);

/// Places are offsets in the file. An ID or a dimension that is absent is 0.
pub struct Section<'a> {
    /// The opening boundary's first hyphen.
    pub boundary: usize,
    /// The first octet; with BASE64 the byte after the empty line.
    pub position: usize,
    /// The byte after the closing boundary's last hyphen.
    pub end: usize,
    pub size: usize,
    pub elements: usize,
    pub byte_offset: bool,
    pub element_type: u8,
    pub base64: bool,
    pub id: u32,
    pub dimensions: [u32; 3],
    pub block: &'a [u8],
}

/// What is made of a file.
pub type Read<'f> = Result<Vec<Section<'f>>, Refusal>;

pub fn read(file: &[u8]) -> Read<'_> {
    if file.len() > FILE_LIMIT {
        return Err((4, 0));
    }
    if !has_identifier(file) {
        return Err((1, 0));
    }
    let mut reader = Reader {
        file,
        at: 0,
        block: b"",
        sections: Vec::new(),
    };
    reader.file()?;
    Ok(reader.sections)
}

pub fn listing(sections: &[Section]) -> Vec<u8> {
    let mut out = Vec::new();
    for (index, section) in sections.iter().enumerate() {
        write!(
            out,
            "{} {} {} {} {} {}",
            index + 1,
            section.position,
            section.size,
            section.elements,
            if section.byte_offset {
                "byte_offset"
            } else {
                "none"
            },
            TYPES[usize::from(section.element_type) - 1],
        )
        .expect("a Vec takes all");
        if !section.block.is_empty() {
            out.push(b' ');
            out.extend_from_slice(section.block);
        }
        out.push(b'\n');
    }
    out
}

/// The catalogue, or 17 for the first data block whose name is too long for its label.
pub fn catalogue(sections: &[Section]) -> Result<Vec<u8>, Refusal> {
    const LABEL: usize = 32;
    if let Some(section) = sections.iter().find(|s| s.block.len() > LABEL) {
        return Err((17, section.boundary as u32));
    }
    let mut bytes = b"FRC\0\x01\0".to_vec();
    bytes.extend((sections.len() as u16).to_le_bytes());
    for section in sections {
        for number in [section.position, section.size, section.elements] {
            bytes.extend((number as u32).to_le_bytes());
        }
        bytes.extend([
            u8::from(section.byte_offset),
            section.element_type,
            u8::from(section.base64),
            0,
        ]);
        for number in [&[section.id][..], &section.dimensions].concat() {
            bytes.extend(number.to_le_bytes());
        }
        let end = bytes.len() + LABEL;
        bytes.extend_from_slice(section.block);
        bytes.resize(end, 0);
    }
    Ok(bytes)
}

fn refusal(number: u32, place: usize) -> Refusal {
    (number, place as u32)
}

fn is_blank(byte: &u8) -> bool {
    matches!(byte, b'\t' | b' ')
}

fn is_text(byte: &u8) -> bool {
    matches!(byte, b'\t' | b' '..=b'~')
}

fn has_identifier(file: &[u8]) -> bool {
    let Some(rest) = file.strip_prefix(IDENTIFIER) else {
        return false;
    };
    let blanks = rest.iter().take_while(|b| is_blank(b)).count();
    blanks > 0 && matches!(rest[blanks..], [b'0' | b'1', b'.', b'0'..=b'9', ..])
}

/// Length of the line end that stands first, 0 for none.
fn line_end(bytes: &[u8]) -> usize {
    match bytes {
        [b'\r', b'\n', ..] => 2,
        [b'\r' | b'\n', ..] => 1,
        _ => 0,
    }
}

fn block_name(line: &[u8]) -> Option<&[u8]> {
    let (word, name) = line.split_at_checked(5)?;
    if !word.eq_ignore_ascii_case(b"data_") {
        return None;
    }
    name.split(is_blank).next()
}

struct Reader<'a> {
    file: &'a [u8],
    at: usize,
    block: &'a [u8],
    sections: Vec<Section<'a>>,
}

impl<'a> Reader<'a> {
    /// The next line without its end; none at the file's end.
    fn line(&mut self) -> Result<Option<&'a [u8]>, Refusal> {
        let rest = &self.file[self.at..];
        if rest.is_empty() {
            return Ok(None);
        }
        let room = self.room();
        let length = room.iter().position(|b| !is_text(b)).unwrap_or(room.len());
        self.end_line(length)?;
        Ok(Some(&rest[..length]))
    }

    /// As much from here on as a line can hold.
    fn room(&self) -> &'a [u8] {
        let rest = &self.file[self.at..];
        &rest[..rest.len().min(LINE_LIMIT)]
    }

    /// Ends a line whose first characters, that many, were found good, or refuses the byte after them.
    fn end_line(&mut self, length: usize) -> Result<(), Refusal> {
        let after = &self.file[self.at + length..];
        let number = match after.first() {
            None | Some(b'\r' | b'\n') => {
                self.at += length + line_end(after);
                return Ok(());
            }
            Some(byte) if !is_text(byte) => 3,
            Some(_) if length == LINE_LIMIT => 2,
            // Text that was not found good: so the line is one of BASE64.
            Some(_) => 10,
        };
        Err(refusal(number, self.at + length))
    }

    /// The next line inside the field that opened at `opening`.
    fn line_in_field(&mut self, opening: usize) -> Result<&'a [u8], Refusal> {
        self.line()?.ok_or(refusal(11, opening))
    }

    fn file(&mut self) -> Result<(), Refusal> {
        loop {
            let start = self.at;
            let Some(line) = self.line()? else {
                return Ok(());
            };
            if let Some(rest) = line.strip_prefix(b";") {
                self.field(start, rest)?;
            } else if let Some(name) = block_name(line) {
                self.block = name;
            }
        }
    }

    fn field(&mut self, opening: usize, rest: &[u8]) -> Result<(), Refusal> {
        let boundary = self.at;
        let mut line = self.line_in_field(opening)?;
        if line == OPENING && rest.iter().all(is_blank) {
            return self.section(opening, boundary);
        }
        while !line.starts_with(b";") {
            line = self.line_in_field(opening)?;
        }
        Ok(())
    }

    fn section(&mut self, opening: usize, boundary: usize) -> Result<(), Refusal> {
        if self.sections.len() == SECTION_LIMIT {
            return Err(refusal(4, boundary));
        }
        let headers = self.headers(opening)?;
        let (position, end) = if headers.base64 {
            (self.at, self.base64(headers.size, opening)?)
        } else {
            (self.at + MARKER.len(), self.binary(headers.size)?)
        };
        self.sections.push(Section {
            boundary,
            position,
            end,
            size: headers.size,
            elements: headers.elements,
            byte_offset: headers.byte_offset,
            element_type: headers.element_type,
            base64: headers.base64,
            id: headers.id,
            dimensions: headers.dimensions,
            block: self.block,
        });
        Ok(())
    }

    fn headers(&mut self, opening: usize) -> Result<Headers, Refusal> {
        let mut found = Found::default();
        // Place and name of the header that `value` belongs to.
        let mut header: Option<(usize, &[u8])> = None;
        let mut value = Vec::new();
        loop {
            let start = self.at;
            let line = self.line_in_field(opening)?;
            if line.first().is_some_and(is_blank) {
                if header.is_none() {
                    return Err(refusal(5, start));
                }
                value.push(b' ');
                value.extend_from_slice(line.trim_ascii_start());
                continue;
            }
            if let Some((place, name)) = header {
                found.take(place, name, value.trim_ascii());
            }
            if line.is_empty() {
                return found.headers(start);
            }
            let (name, text) = split_header(line).ok_or(refusal(5, start))?;
            header = Some((start, name));
            value.clear();
            value.extend_from_slice(text);
        }
    }

    /// Passes over a BINARY section's marker, octets and closing; tells where its closing boundary ends.
    fn binary(&mut self, size: usize) -> Result<usize, Refusal> {
        if !self.file[self.at..].starts_with(MARKER) {
            return Err(refusal(8, self.at));
        }
        let after = self.at + MARKER.len() + size;
        let Some(rest) = self.file.get(after..) else {
            return Err(refusal(9, self.file.len()));
        };
        let closing = after + line_end(rest);
        if closing == after || !self.file[closing..].starts_with(CLOSING) {
            return Err(refusal(9, after));
        }
        let end = closing + CLOSING.len();
        self.at = self.after_semicolon(end).ok_or(refusal(9, after))?;
        Ok(end)
    }

    /// Passes over a BASE64 section's text and closing; tells where its closing boundary ends.
    fn base64(&mut self, size: usize, opening: usize) -> Result<usize, Refusal> {
        let mut letters = Letters::default();
        while !self.is_closing_line() {
            if self.at == self.file.len() {
                return Err(refusal(11, opening));
            }
            let room = self.room();
            let length = room
                .iter()
                .position(|&b| !letters.take(b))
                .unwrap_or(room.len());
            self.end_line(length)?;
        }
        if letters.octets() != Some(size) {
            return Err(refusal(10, self.at));
        }
        let end = self.at + CLOSING.len();
        self.at = self.after_semicolon(end).ok_or(refusal(9, self.at))?;
        Ok(end)
    }

    fn is_closing_line(&self) -> bool {
        self.file[self.at..]
            .strip_prefix(CLOSING)
            .is_some_and(|rest| rest.is_empty() || line_end(rest) > 0)
    }

    /// Where the `;` line ends that follows a closing boundary.
    fn after_semicolon(&self, end: usize) -> Option<usize> {
        let rest = &self.file[end..];
        let rest = match line_end(rest) {
            0 => return None,
            length => rest[length..].strip_prefix(b";")?,
        };
        let blanks = rest.iter().take_while(|b| is_blank(b)).count();
        let after = &rest[blanks..];
        let length = line_end(after);
        if blanks >= LINE_LIMIT || (length == 0 && !after.is_empty()) {
            return None;
        }
        Some(self.file.len() - after.len() + length)
    }
}
