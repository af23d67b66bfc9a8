//! Instructions, as valgrind counts them.

use std::process::Command;

/// Instructions of a run of this program; none where there is no valgrind.
pub fn instructions(words: &[&str], times: usize) -> Option<f64> {
    let me = std::env::current_exe().ok()?;
    let out = Command::new("valgrind")
        .args([
            "--tool=cachegrind",
            "--cache-sim=no",
            "--cachegrind-out-file=/dev/null",
        ])
        .arg(me)
        .arg("run")
        .args(words)
        .arg(times.to_string())
        .output()
        .ok()?;
    let text = String::from_utf8_lossy(&out.stderr).into_owned();
    assert!(out.status.success(), "run {words:?} {times}: {text}");
    let line = text
        .lines()
        .find(|l| l.contains("I") && l.contains("refs:"))?;
    line.rsplit(':')
        .next()?
        .trim()
        .replace(',', "")
        .parse()
        .ok()
}
