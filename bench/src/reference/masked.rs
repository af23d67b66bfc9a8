//! What examples/replace.c does: the file that it is to write, and what it is to print.

use super::{reader, replacement, sections};

/// The file with every pixel above a limit exchanged for a value, how many these are, and of how many.
fn masked(
    file: &[u8],
    section: usize,
    limit: i64,
    value: i64,
) -> Result<(Vec<u8>, usize, usize), reader::Refusal> {
    let read = reader::read(file);
    let sections = read.as_ref().map_err(|refusal| *refusal)?;
    let mut pixels = sections::pixels(file, sections, section)?;
    let mut count = 0;
    for pixel in pixels.iter_mut().filter(|pixel| **pixel > limit) {
        *pixel = value;
        count += 1;
    }
    let edit = replacement::edit(file, &read, section, &pixels)?;
    Ok((edit.made(file), count, pixels.len()))
}

/// Writes the file and prints the line; returns the exit status.
pub fn run([from, section, to, limit, value]: [&str; 5]) -> i32 {
    let number = |text: &str| -> i64 { text.parse().expect("a number") };
    let file = std::fs::read(from).expect("a file");
    match masked(
        &file,
        number(section) as usize,
        number(limit),
        number(value),
    ) {
        Err((number, place)) => {
            println!("refused {number} at {place}");
            1
        }
        Ok((result, count, pixels)) => {
            std::fs::write(to, &result).expect("a place for the file");
            let length = result.len();
            println!("frame {section}: {count} of {pixels} pixels masked, {length} bytes written");
            0
        }
    }
}
