//! Files that CBFlib, fabio and DIALS wrote, the last of the vectors, against what document 01 says of them.

use super::differ;
use crate::inputs::vectors;
use mooringelm::Refusal;

/// For each file its name, and its refusal or the number of its sections and which of them do not unpack.
const TABLE: &str = include_str!("../../vectors/other_programs.txt");

/// The table's words for what the library says of a file, and how many calls it took.
fn words(file: &[u8]) -> (String, usize) {
    let refused = |Refusal { number, place, .. }| format!("refused {number} at {place}");
    let count = match mooringelm::count(file) {
        Ok(count) => count,
        Err(refusal) => return (refused(refusal), 1),
    };
    let plural = if count == 1 { "" } else { "s" };
    let mut words = format!("{count} section{plural}");
    let mut pixels = vec![0; file.len()];
    for number in 1..=count {
        if let Err(refusal) = mooringelm::unpack(file, number, &mut pixels) {
            words += &format!(", unpack {number} {}", refused(refusal));
        }
    }
    (words, 1 + count)
}

/// Compares all of these files, and tells how many calls there were.
pub fn all() -> usize {
    let files = vectors::files();
    let first = files.len() - TABLE.lines().count();
    let mut calls = 0;
    for (line, file) in TABLE.lines().zip(&files[first..]) {
        let (name, expected) = line.split_once(' ').expect("a name and what is said");
        let (words, more) = words(file);
        if words != expected {
            differ(format!("{name}: {words}, and not {expected}"));
        }
        calls += more;
    }
    calls
}
