//! The speed of the library beside straightforward Rust, with the bars that it has to meet.

mod bars;
mod calls;
mod clock;
mod files;
mod pixels;
mod replacement;
mod valgrind;

/// What is measured, each by a function that tells whether its bars are met.
pub const MEASURED: [(&str, fn() -> bool); 4] = [
    ("pixels", pixels::measure),
    ("files", files::measure),
    ("calls", calls::measure),
    ("replacement", replacement::measure),
];

/// Measures what has one of these names; the exit status is 1 where a bar is not met.
pub fn run(names: &[&str]) {
    let chosen = MEASURED.iter().filter(|(name, _)| names.contains(name));
    let met: Vec<bool> = chosen.map(|(_, measure)| measure()).collect();
    if met.contains(&false) {
        std::process::exit(1);
    }
}

/// What valgrind counts; whether the words name such a run.
pub fn counted(words: &[&str]) -> bool {
    let number = |times: &str| times.parse().expect("a number");
    match *words {
        ["pixels", who, what, element_type, path, times] => {
            pixels::run(who, what, element_type, path, number(times));
        }
        ["replacement", call, times] => replacement::run(call, number(times)),
        [who, file, times] => _ = files::run(who, file, number(times)),
        [who, call, file, times] => _ = calls::run(who, call, file, number(times)),
        _ => return false,
    }
    true
}
