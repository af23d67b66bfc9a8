//! Large files for measuring speed: text, headers, BASE64, octets, and one section.

use super::files::{base64_text, ELEMENT_TYPES};
use super::random::Random;
use std::fmt::Write;

const SECTIONS: usize = 400;
pub const BASE64_LETTERS: usize = 3_000_000;
const BASE64_WIDTH: usize = 76;

const WORDS: [&str; 12] = [
    "the",
    "beam",
    "was",
    "attenuated",
    "detector",
    "at",
    "distance",
    "of",
    "exposure",
    "and",
    "a",
    "crystal",
];

/// Words or numbers, of 5 to 80 characters.
fn line(numbers: bool, random: &mut Random) -> String {
    let length = 5 + random.below(76);
    let mut line = String::new();
    while line.len() < length {
        if numbers {
            write!(line, "{} ", random.below(1_000_000) as f64 / 1_000.0).unwrap();
        } else {
            line += WORDS[random.below(WORDS.len())];
            line.push(' ');
        }
    }
    line.truncate(length);
    line
}

/// A data block with a comment, tags, a loop, and a text field.
fn block(number: usize, random: &mut Random) -> String {
    let mut text = format!("data_image_{number}\r\n# {:.78}\r\n", line(false, random));
    for tag in ["id", "detector", "wavelength", "details"] {
        write!(text, "_diffrn.{tag:<20} {:.40}\r\n", line(false, random)).unwrap();
    }
    text += "loop_\r\n_scan.frame_id\r\n_scan.angle\r\n_scan.counts\r\n";
    for _ in 0..20 + random.below(60) {
        text += &line(true, random);
        text += "\r\n";
    }
    text += "_diffrn.special_details\r\n;\r\n";
    for _ in 0..random.below(40) {
        text += &line(false, random);
        text += "\r\n";
    }
    text + ";\r\n"
}

/// 1 MB of text outside and inside fields, without sections.
pub fn text() -> Vec<u8> {
    let mut random = Random::new(21);
    let mut text = String::from("###CBF: VERSION 1.5\r\n");
    let mut number = 0;
    while text.len() < 1_000_000 {
        number += 1;
        text += &block(number, &mut random);
    }
    text += "\r\n";
    text.into_bytes()
}

pub fn headers() -> Vec<u8> {
    sections(SECTIONS)
}

/// Sections of a few octets, each with all known headers and two others.
pub fn sections(count: usize) -> Vec<u8> {
    let mut file = b"###CBF: VERSION 1.5\r\ndata_image_1\r\n".to_vec();
    for number in 1..=count {
        let elements = 1 + number % 8;
        let text = format!(
            "_array_data.data\r\n;\r\n--CIF-BINARY-FORMAT-SECTION--\r\n\
            Content-Type: application/octet-stream;\r\n     conversions=\"x-CBF_BYTE_OFFSET\"\r\n\
            Content-Transfer-Encoding: BINARY\r\nX-Binary-Size: {elements}\r\nX-Binary-ID: {number}\r\n\
            X-Binary-Element-Type: \"signed 32-bit integer\"\r\n\
            X-Binary-Element-Byte-Order: LITTLE_ENDIAN\r\nContent-MD5: 1B2M2Y8AsgTpgAmY7PhCfg==\r\n\
            X-Binary-Number-of-Elements: {elements}\r\n\
            X-Binary-Size-Fastest-Dimension: {elements}\r\nX-Binary-Size-Second-Dimension: 1\r\n\
            X-Binary-Size-Third-Dimension: 1\r\nX-Binary-Size-Padding: 4095\r\n\r\n"
        );
        file.extend_from_slice(text.as_bytes());
        file.extend_from_slice(b"\x0c\x1a\x04\xd5");
        file.extend((0..elements).map(|octet| octet as u8));
        file.extend_from_slice(b"\r\n--CIF-BINARY-FORMAT-SECTION----\r\n;\r\n");
    }
    file
}

/// One BASE64 section, with that many letters more than it should have.
pub fn base64(more: usize) -> Vec<u8> {
    let mut random = Random::new(22);
    let size = BASE64_LETTERS / 4 * 3;
    let octets: Vec<u8> = (0..size).map(|_| random.next() as u8).collect();
    let letters = base64_text(&octets) + &"A".repeat(more);
    let text = format!(
        "###CBF: VERSION 1.5\r\ndata_image_1\r\n_array_data.data\r\n;\r\n--CIF-BINARY-FORMAT-SECTION--\r\n\
        Content-Type: application/octet-stream\r\nContent-Transfer-Encoding: BASE64\r\n\
        X-Binary-Size: {size}\r\nX-Binary-ID: 1\r\nX-Binary-Element-Type: \"unsigned 8-bit integer\"\r\n\
        X-Binary-Number-of-Elements: {size}\r\n\r\n"
    );
    let mut file = text.into_bytes();
    put_lines(&letters, &mut file);
    file.extend_from_slice(b"--CIF-BINARY-FORMAT-SECTION----\r\n;\r\n");
    file
}

fn put_lines(letters: &str, file: &mut Vec<u8>) {
    for line in letters.as_bytes().chunks(BASE64_WIDTH) {
        file.extend_from_slice(line);
        file.extend_from_slice(b"\r\n");
    }
}

/// A file with one section.
pub fn section(
    base64: bool,
    byte_offset: bool,
    element_type: u8,
    elements: usize,
    octets: &[u8],
) -> Vec<u8> {
    let encoding = if base64 { "BASE64" } else { "BINARY" };
    let conversions = if byte_offset {
        ";\r\n     conversions=\"x-CBF_BYTE_OFFSET\""
    } else {
        ""
    };
    let element_type = ELEMENT_TYPES[usize::from(element_type) - 1];
    let size = octets.len();
    let text = format!(
        "###CBF: VERSION 1.5\r\ndata_image_1\r\n_array_data.data\r\n;\r\n--CIF-BINARY-FORMAT-SECTION--\r\n\
        Content-Type: application/octet-stream{conversions}\r\nContent-Transfer-Encoding: {encoding}\r\n\
        X-Binary-Size: {size}\r\nX-Binary-ID: 1\r\nX-Binary-Element-Type: \"{element_type}\"\r\n\
        X-Binary-Number-of-Elements: {elements}\r\n\r\n"
    );
    let mut file = text.into_bytes();
    if base64 {
        put_lines(&base64_text(octets), &mut file);
    } else {
        file.extend_from_slice(b"\x0c\x1a\x04\xd5");
        file.extend_from_slice(octets);
        file.extend_from_slice(b"\r\n");
    }
    file.extend_from_slice(b"--CIF-BINARY-FORMAT-SECTION----\r\n;\r\n");
    file
}

/// Frames of s32 as a detector writes them, each in a data block of its own; the octets are packed.
pub fn exposures<'o>(
    width: usize,
    height: usize,
    frames: impl Iterator<Item = &'o [u8]>,
) -> Vec<u8> {
    let mut file = b"###CBF: VERSION 1.5\r\n".to_vec();
    for (index, octets) in frames.enumerate() {
        let (number, size, elements) = (index + 1, octets.len(), width * height);
        let text = format!(
            "\r\ndata_image_{number}\r\n\r\n_array_data.header_convention \"SLS_1.0\"\r\n\
            _array_data.header_contents\r\n;\r\n\
            # Exposure_time 0.200000 s\r\n# Start_angle {:.4} deg.\r\n;\r\n\r\n_array_data.data\r\n;\r\n\
            --CIF-BINARY-FORMAT-SECTION--\r\n\
            Content-Type: application/octet-stream;\r\n     conversions=\"x-CBF_BYTE_OFFSET\"\r\n\
            Content-Transfer-Encoding: BINARY\r\nX-Binary-Size: {size}\r\nX-Binary-ID: {number}\r\n\
            X-Binary-Element-Type: \"signed 32-bit integer\"\r\n\
            X-Binary-Element-Byte-Order: LITTLE_ENDIAN\r\nContent-MD5: 1B2M2Y8AsgTpgAmY7PhCfg==\r\n\
            X-Binary-Number-of-Elements: {elements}\r\n\
            X-Binary-Size-Fastest-Dimension: {width}\r\nX-Binary-Size-Second-Dimension: {height}\r\n\r\n",
            0.1 * index as f64
        );
        file.extend_from_slice(text.as_bytes());
        file.extend_from_slice(b"\x0c\x1a\x04\xd5");
        file.extend_from_slice(octets);
        file.extend_from_slice(b"\r\n--CIF-BINARY-FORMAT-SECTION----\r\n;\r\n");
    }
    file
}

/// One BINARY section of 1,000,000,000 octets, all 0; only the ends of the file are touched.
pub fn octets() -> Vec<u8> {
    let (size, elements) = (1_000_000_000, 67_108_864);
    let text = format!(
        "###CBF: VERSION 1.5\r\ndata_image_1\r\n_array_data.data\r\n;\r\n--CIF-BINARY-FORMAT-SECTION--\r\n\
        Content-Type: application/octet-stream;\r\n     conversions=\"x-CBF_BYTE_OFFSET\"\r\n\
        Content-Transfer-Encoding: BINARY\r\nX-Binary-Size: {size}\r\n\
        X-Binary-Number-of-Elements: {elements}\r\n\r\n\x0c\x1a\x04"
    );
    let closing = b"\r\n--CIF-BINARY-FORMAT-SECTION----\r\n;\r\n";
    let first = text.len() + 1;
    let mut file = vec![0; first + size + closing.len()];
    file[..first - 1].copy_from_slice(text.as_bytes());
    file[first - 1] = 0xd5;
    file[first + size..].copy_from_slice(closing);
    file
}
