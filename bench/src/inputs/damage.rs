//! Damage to a file, by chance.

use super::random::Random;

/// Bytes that mean something to a reader, and neighbours of the classes of bytes.
const TELLING: &[u8] = b"\t\n\r\x1f ~\x7f\x80\x00\xff;:=\"-_#+/09AZaz@[`{.";

fn byte(random: &mut Random) -> u8 {
    match random.below(4) {
        0 => random.next() as u8,
        _ => TELLING[random.below(TELLING.len())],
    }
}

/// A place in the file: any, or one at a byte that readers look for.
fn place(file: &[u8], random: &mut Random) -> usize {
    let at = random.below(file.len());
    if random.below(2) == 0 {
        return at;
    }
    let found = file[at..]
        .iter()
        .position(|b| b":;-=\"\r\n_".contains(b))
        .map_or(at, |n| at + n);
    (found + random.below(3)).min(file.len() - 1)
}

/// The next place after `at`, from the start again where there is none, whose byte is such.
fn next_such(file: &[u8], at: usize, such: fn(&u8) -> bool) -> Option<usize> {
    let after = file[at..].iter().position(such).map(|n| at + n);
    after.or_else(|| file[..at].iter().position(such))
}

fn lines(file: &[u8]) -> Vec<&[u8]> {
    let mut lines = Vec::new();
    let mut start = 0;
    for at in 0..file.len() {
        let ends = match file[at] {
            b'\r' => file.get(at + 1) != Some(&b'\n'),
            b'\n' => true,
            _ => false,
        };
        if ends {
            lines.push(&file[start..=at]);
            start = at + 1;
        }
    }
    lines.push(&file[start..]);
    lines
}

/// A line dropped, doubled, or exchanged with another.
fn damage_lines(file: &[u8], random: &mut Random) -> Vec<u8> {
    let mut lines = lines(file);
    let (at, other) = (random.below(lines.len()), random.below(lines.len()));
    let next = (at + 1) % lines.len();
    match random.below(4) {
        0 => _ = lines.remove(at),
        1 => lines.insert(at, lines[at]),
        2 => lines.swap(at, other),
        _ => lines.swap(at, next),
    }
    lines.concat()
}

/// A digit one up or down.
fn damage_number(file: &mut [u8], at: usize, random: &mut Random) {
    if let Some(digit) = next_such(file, at, u8::is_ascii_digit) {
        file[digit] = match (file[digit], random.below(2)) {
            (b'0', _) => b'1',
            (b'9', _) => b'8',
            (d, 0) => d - 1,
            (d, _) => d + 1,
        };
    }
}

/// A `=` moved by one, or one more.
fn damage_equals(file: &mut Vec<u8>, at: usize, random: &mut Random) {
    match next_such(file, at, |&b| b == b'=') {
        Some(equals) if equals > 0 && random.below(2) == 0 => file.swap(equals - 1, equals),
        Some(equals) if random.below(2) == 0 => _ = file.remove(equals),
        _ => file.insert(at, b'='),
    }
}

fn exchange_letters(file: &mut [u8], at: usize, random: &mut Random) {
    let other = random.below(file.len());
    let letters = (
        next_such(file, at, u8::is_ascii_alphabetic),
        next_such(file, other, u8::is_ascii_alphabetic),
    );
    if let (Some(one), Some(other)) = letters {
        file.swap(one, other);
    }
}

fn splice(file: &mut Vec<u8>, at: usize, other: &[u8], random: &mut Random) {
    let start = random.below(other.len() + 1);
    let length = random.below((other.len() - start).min(900) + 1);
    let replaced = random.below((file.len() - at).min(300) + 1) * random.below(2);
    file.splice(
        at..at + replaced,
        other[start..start + length].iter().copied(),
    );
}

/// The file with one damage; `other` is what a part may be taken from.
pub fn damage(mut file: Vec<u8>, other: &[u8], random: &mut Random) -> Vec<u8> {
    if file.is_empty() {
        return vec![byte(random)];
    }
    let (at, any) = (place(&file, random), random.below(file.len()));
    let next = (at + 1) % file.len();
    match random.below(15) {
        0 => file[at] ^= 1 << random.below(8),
        1 => file[at] = byte(random),
        2 => _ = file.remove(at),
        3 => file.insert(at, byte(random)),
        4 => file.insert(at, file[at]),
        5 => file.swap(at, next),
        6 => file.swap(at, any),
        7 => file.truncate(at),
        8..=10 => file = damage_lines(&file, random),
        11 => damage_number(&mut file, at, random),
        12 => damage_equals(&mut file, at, random),
        13 => exchange_letters(&mut file, at, random),
        _ => splice(&mut file, at, other, random),
    }
    file
}
