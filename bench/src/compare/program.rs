//! The program cbf_list, run on the vectors and on files at the edge of its buffer, against what it is to print.

use super::differ;
use crate::inputs::vectors;
use std::io::Write;
use std::process::{Command, Stdio};

/// The program's buffer.
const BUFFER: usize = 65_536;

/// What the program prints for this input.
fn printed(path: &str, input: &[u8]) -> Vec<u8> {
    let mut child = Command::new(path)
        .stdin(Stdio::piped())
        .stdout(Stdio::piped())
        .spawn()
        .expect("the program runs");
    // The program reads one byte past its buffer and stops: the rest of a long input finds no reader.
    let _ = child.stdin.take().expect("a pipe").write_all(input);
    child.wait_with_output().expect("the program ends").stdout
}

fn check(path: &str, input: &[u8], listing: &[u8]) {
    let expected: &[u8] = if input.len() > BUFFER {
        b"refused 4 at 0\n"
    } else {
        listing
    };
    let got = printed(path, input);
    if got != expected {
        differ(format!(
            "{path} on {} bytes prints {:?}, and not {:?}",
            input.len(),
            got.escape_ascii().to_string(),
            expected.escape_ascii().to_string()
        ));
    }
}

/// A file of that many bytes without sections: its first line and empty ones.
fn empty_lines(length: usize) -> Vec<u8> {
    let mut file = b"###CBF: VERSION 1.5\n".to_vec();
    file.resize(length, b'\n');
    file
}

/// Compares all runs, and tells how many there were.
pub fn all(path: &str) -> usize {
    let mut cases = vectors::cases();
    cases.extend([BUFFER - 1, BUFFER, BUFFER + 1].map(|length| (empty_lines(length), Vec::new())));
    for (file, listing) in &cases {
        check(path, file, listing);
    }
    cases.len()
}
