//! The library's and the reference's transcript of the vectors against the independent program's.

mod side;
mod text;

use super::differ;
use crate::inputs::vectors;
use side::{Library, Reference, Side};

/// Differs at the first line that is not the independent program's, or that one of them lacks.
fn check(who: &str, text: &str, independent: &str) {
    let (mut lines, mut others) = (text.split('\n'), independent.split('\n'));
    let mut case = "before the first case";
    loop {
        match (lines.next(), others.next()) {
            (None, None) => return,
            (line, other) if line != other => {
                let [line, other] = [line, other].map(|line| line.unwrap_or("nothing more"));
                differ(format!(
                    "transcript, {case}: {who} says {line:?}, and not {other:?}"
                ));
            }
            (Some(line), _) if line.starts_with("case ") => case = line,
            _ => {}
        }
    }
}

/// Compares both transcripts, and tells how many calls each took.
pub fn all() -> usize {
    let files = vectors::files();
    let sides: [(&str, &dyn Side); 2] = [("library", &Library), ("reference", &Reference)];
    let calls = sides.map(|(who, side)| {
        let transcript = text::of(side, &files);
        check(who, &transcript.text, vectors::TRANSCRIPT);
        transcript.calls
    });
    calls[0]
}

/// Prints the library's transcript of the files of a cases.bin.
pub fn print(path: &str) {
    let cases = std::fs::read(path).expect("a cases.bin");
    print!("{}", text::of(&Library, &vectors::split(&cases)).text);
}
