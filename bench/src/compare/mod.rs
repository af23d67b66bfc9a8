//! The library against the independent implementation: answers, every lent slice, and what the programs print.

mod calls;
mod edges;
mod files;
mod longest;
mod masks;
mod null;
mod other_programs;
mod pixels;
pub mod program;
mod replacements;
mod sections;
pub mod transcript;

/// What is compared, what its calls are, and a function that ends the run at a difference and else tells how many
/// they were.
pub const COMPARED: [(&str, &str, fn() -> usize); 7] = [
    ("pixels", "on pixels", pixels::all),
    ("edges", "at the edges of loops", edges::all),
    ("transcript", "of the transcript", transcript::all),
    ("files", "on files", files::all),
    (
        "masks",
        "with masks on two of forty frames, the longest result and the most octets",
        || masks::all() + longest::all(),
    ),
    (
        "programs",
        "on files by CBFlib, fabio and DIALS",
        other_programs::all,
    ),
    (
        "null",
        "with NULL or another pointer for a length of 0",
        null::all,
    ),
];

/// Compares what has one of these names.
pub fn run(names: &[&str]) {
    for (_, calls, compare) in COMPARED.iter().filter(|row| names.contains(&row.0)) {
        println!("bench: {} calls {calls} compared, no difference", compare());
    }
}

/// Tells of the first difference, and ends the run.
fn differ(what: String) -> ! {
    println!("DIFFERENT: {what}");
    std::process::exit(1)
}
