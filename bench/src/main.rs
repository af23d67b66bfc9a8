// SPDX-License-Identifier: Apache-2.0
//! Compares the library with an independent implementation on many inputs, and measures its speed beside a
//! straightforward one.
//!
//! bench               compare, then measure; exit status 1 at the first difference or where a bar is not met
//! bench compare       compare only
//! bench compare WHAT  compare only pixels, edges, transcript, files, masks, programs or null
//! bench transcript CASES    print what the library says of each file of a cases.bin (vectors/README.md)
//! bench measure WHAT  measure only pixels, files, calls or replacement
//! bench program PATH  compare what the program cbf_list prints
//! bench masked IN SECTION OUT LIMIT VALUE    what examples/replace.c is to write and to print
//!
//! and for valgrind, which counts the instructions of these (WHO is ours or plain):
//!
//! bench run pixels WHO CALL TYPE PATH TIMES    one call on a frame in a file, that many times
//! bench run WHO FILE TIMES               one reading of a large file, that many times
//! bench run WHO CALL FILE TIMES          one call on a file's sections, that many times
//! bench run replacement CALL TIMES       memcpy, pack, or the number of a frame to replace in a large file

mod compare;
mod inputs;
mod measure;
mod reference;

use compare::COMPARED;
use measure::MEASURED;

fn main() {
    let words: Vec<String> = std::env::args().skip(1).collect();
    let words: Vec<&str> = words.iter().map(String::as_str).collect();
    match words[..] {
        ["run", ref words @ ..] if measure::counted(words) => {}
        ["compare"] => compare::run(&COMPARED.map(|row| row.0)),
        ["compare", name] if COMPARED.iter().any(|row| row.0 == name) => compare::run(&[name]),
        ["transcript", path] => compare::transcript::print(path),
        ["measure", name] if MEASURED.iter().any(|row| row.0 == name) => measure::run(&[name]),
        ["program", path] => {
            let runs = compare::program::all(path);
            println!("bench: {runs} runs of {path} compared, no difference");
        }
        ["masked", from, section, to, limit, value] => {
            std::process::exit(reference::masked::run([from, section, to, limit, value]));
        }
        [] => {
            compare::run(&COMPARED.map(|row| row.0));
            measure::run(&MEASURED.map(|(name, _)| name));
        }
        _ => {
            println!("usage: bench [compare [WHAT] | transcript CASES | measure WHAT | program PATH | masked ..]");
            println!("bench/src/main.rs says what each does");
            std::process::exit(2);
        }
    }
}
