//! Replacement of a frame.

use super::pixels;
use super::reader::{Read, Refusal, Section, CLOSING, FILE_LIMIT, MARKER, OPENING};
use super::sections::numbered;

/// A part of a file, and what it is exchanged for.
pub struct Edit {
    pub start: usize,
    pub end: usize,
    pub form: Vec<u8>,
}

impl Edit {
    /// How long the file is with this edit made.
    pub fn length(&self, file: &[u8]) -> usize {
        file.len() - (self.end - self.start) + self.form.len()
    }

    /// Whether `result` is the file with this edit made.
    pub fn gives(&self, file: &[u8], result: &[u8]) -> bool {
        let Some((before, rest)) = result.split_at_checked(self.start) else {
            return false;
        };
        let Some(after) = rest.strip_prefix(&self.form[..]) else {
            return false;
        };
        before == &file[..self.start] && after == &file[self.end..]
    }

    pub fn made(&self, file: &[u8]) -> Vec<u8> {
        [&file[..self.start], &self.form, &file[self.end..]].concat()
    }
}

/// The file with both edits made, each in its part of the original.
pub fn both_made(file: &[u8], one: &Edit, other: &Edit) -> Vec<u8> {
    let (first, second) = if one.start < other.start {
        (one, other)
    } else {
        (other, one)
    };
    [
        &file[..first.start],
        &first.form,
        &file[first.end..second.start],
        &second.form,
        &file[second.end..],
    ]
    .concat()
}

/// What replacing a section's frame does to the file, or the refusal; the lent room is not looked at.
pub fn edit(file: &[u8], read: &Read, number: usize, frame: &[i64]) -> Result<Edit, Refusal> {
    let sections = read.as_ref().map_err(|refusal| *refusal)?;
    let section = numbered(sections, number)?;
    if section.base64 {
        return Err((18, 0));
    }
    if frame.len() != section.elements {
        return Err((14, 0));
    }
    let octets = pixels::pack(section.element_type, frame, usize::MAX)?;
    let edit = Edit {
        start: section.boundary,
        end: section.end,
        form: house_form(section, &octets),
    };
    if edit.length(file) > FILE_LIMIT {
        return Err((15, 0));
    }
    Ok(edit)
}

/// A section from its opening boundary's first hyphen to its closing boundary's last.
fn house_form(section: &Section, octets: &[u8]) -> Vec<u8> {
    let mut form = OPENING.to_vec();
    for line in headers(section, octets.len()) {
        form.extend_from_slice(b"\r\n");
        form.extend_from_slice(line.as_bytes());
    }
    // The end of the last header's line, and the empty line.
    form.extend_from_slice(b"\r\n\r\n");
    form.extend_from_slice(MARKER);
    form.extend_from_slice(octets);
    form.extend_from_slice(b"\r\n");
    form.extend_from_slice(CLOSING);
    form
}

fn headers(section: &Section, size: usize) -> Vec<String> {
    let mut lines = vec![
        "Content-Type: application/octet-stream;".into(),
        "     conversions=\"x-CBF_BYTE_OFFSET\"".into(),
        "Content-Transfer-Encoding: BINARY".into(),
        format!("X-Binary-Size: {size}"),
    ];
    if section.id != 0 {
        lines.push(format!("X-Binary-ID: {}", section.id));
    }
    lines.push(element_type(section.element_type));
    lines.push("X-Binary-Element-Byte-Order: LITTLE_ENDIAN".into());
    lines.push(format!("X-Binary-Number-of-Elements: {}", section.elements));
    for (which, size) in ["Fastest", "Second", "Third"]
        .iter()
        .zip(section.dimensions)
    {
        if size != 0 {
            lines.push(format!("X-Binary-Size-{which}-Dimension: {size}"));
        }
    }
    lines
}

fn element_type(element_type: u8) -> String {
    let (least, _, octets) = pixels::range(element_type).expect("one of six");
    let sign = if least < 0 { "signed" } else { "unsigned" };
    format!(
        "X-Binary-Element-Type: \"{sign} {}-bit integer\"",
        8 * octets
    )
}
