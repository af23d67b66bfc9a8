//! A line on standard error that says what is going on, where that is a terminal and the work takes more than a second.

use std::io::{self, IsTerminal, Write};
use std::sync::Mutex;
use std::thread;
use std::time::{Duration, Instant};

struct Line {
    text: String,
    shown: bool,
    started: Option<Instant>,
}

static LINE: Mutex<Line> = Mutex::new(Line {
    text: String::new(),
    shown: false,
    started: None,
});

/// Says what is going on from now on; part and whole are given in what the text counts, 0 for no count.
pub fn stage(text: &str, part: usize, whole: usize) {
    let mut line = LINE.lock().unwrap();
    if line.started.is_none() {
        line.started = Some(Instant::now());
        if io::stderr().is_terminal() {
            thread::spawn(watch);
        }
    }
    line.text = match (part * 100).checked_div(whole) {
        Some(hundredths) => format!("{text}, {hundredths} %"),
        None => text.to_string(),
    };
}

fn watch() {
    loop {
        thread::sleep(Duration::from_millis(200));
        let mut line = LINE.lock().unwrap();
        let seconds = line.started.map_or(0, |from| from.elapsed().as_secs());
        if seconds > 0 && !line.text.is_empty() {
            line.shown = true;
            let _ = write!(io::stderr(), "\r\x1b[Kmel: {} ({seconds} s)", line.text);
        }
    }
}

/// Takes the line away, before a message and at the end.
pub fn end() {
    let mut line = LINE.lock().unwrap();
    line.text.clear();
    if line.shown {
        line.shown = false;
        let _ = write!(io::stderr(), "\r\x1b[K");
    }
}
