//! The vectors: files, and an independent program's transcript of them.

use crate::reference::pixels::range;

pub const COUNT: usize = 542;

const FILES: &[u8] = include_bytes!("../../vectors/cases.bin");
pub const TRANSCRIPT: &str = include_str!("../../vectors/transcript.txt");

/// The files of a cases.bin: each as four bytes of length, lowest octet first, and then the file.
pub fn split(mut rest: &[u8]) -> Vec<Vec<u8>> {
    let mut files = Vec::new();
    while let Some((length, after)) = rest.split_first_chunk() {
        let length = u32::from_le_bytes(*length) as usize;
        let (file, next) = after.split_at_checked(length).expect("a whole file");
        files.push(file.to_vec());
        rest = next;
    }
    assert!(rest.is_empty(), "the length of a file is cut");
    files
}

pub fn files() -> Vec<Vec<u8>> {
    let files = split(FILES);
    assert_eq!(files.len(), COUNT);
    files
}

/// The lines of each case from its heading to its catalogue.
fn listings() -> Vec<Vec<u8>> {
    let mut listings: Vec<Vec<u8>> = Vec::new();
    let mut listed = false;
    for line in TRANSCRIPT.lines() {
        if line.starts_with("case ") {
            listings.push(Vec::new());
            listed = true;
        } else if line.starts_with("catalogue ") {
            listed = false;
        } else if listed {
            let listing = listings.last_mut().expect("a case before its lines");
            listing.extend_from_slice(line.as_bytes());
            listing.push(b'\n');
        }
    }
    listings
}

/// Each file with its listing; a refused one with the line of its refusal.
pub fn cases() -> Vec<(Vec<u8>, Vec<u8>)> {
    let (files, listings) = (files(), listings());
    assert_eq!(files.len(), listings.len());
    files.into_iter().zip(listings).collect()
}

/// A frame by its style: of the whole type, or of 0 to 99.
pub fn frame(element_type: u8, elements: usize, number: usize, style: usize) -> Vec<i64> {
    let (least, greatest, _) = range(element_type).expect("one of six");
    let pixel = |i: usize| match style {
        1 => least + ((i * 7_919 + number * 104_729 + 17) as i64) % (greatest - least + 1),
        _ => ((i * i + number) % 100) as i64,
    };
    (0..elements).map(pixel).collect()
}
