//! Frames of the element types, of 487 × 619 pixels and larger: detector-like, noise, strong, sparse, and with a mask.

use super::random::Random;
use crate::reference::pixels::range;

pub const WIDTH: usize = 487;
pub const HEIGHT: usize = 619;
pub const PIXELS: usize = WIDTH * HEIGHT;

/// Width and height.
pub type Size = (usize, usize);

pub const SMALL: Size = (WIDTH, HEIGHT);

/// A large detector: four rows of five small frames, with gaps of 17 rows and 7 columns.
pub const LARGE: Size = (5 * WIDTH + 4 * 7, 4 * HEIGHT + 3 * 17);

/// Poisson background of mean 5; a peak on one pixel in 5,000, its four neighbours raised (heights e^3 to e^11); in
/// signed types bands of 17 rows of -1 from row 195 on, every 212 rows. Counts are cut to the type.
fn detector(element_type: u8, (width, height): Size, random: &mut Random) -> Vec<i64> {
    let (least, greatest, _) = range(element_type).unwrap();
    let count = width * height;
    let mut pixels: Vec<i64> = (0..count).map(|_| random.poisson(5.0)).collect();
    for at in 0..count {
        if random.below(5_000) == 0 {
            let peak = (3.0 + 8.0 * random.unit()).exp();
            pixels[at] += peak as i64;
            for near in [
                at.wrapping_sub(width),
                at.wrapping_sub(1),
                at + 1,
                at + width,
            ] {
                if near < count {
                    pixels[near] += (peak / 4.0) as i64;
                }
            }
        }
    }
    if least < 0 {
        for first in (195..height).step_by(212) {
            for row in first..(first + 17).min(height) {
                pixels[row * width..(row + 1) * width].fill(-1);
            }
        }
    }
    pixels.iter().map(|&p| p.min(greatest)).collect()
}

/// A random number of the type's width, shifted right at random: by 25, 17, 4 or 1 of 32 bits, and fewer in narrower
/// types.
fn noise(element_type: u8, (width, height): Size, random: &mut Random) -> Vec<i64> {
    let (least, _, octets) = range(element_type).unwrap();
    let bits = 8 * octets as u32;
    let shifts = [[1, 1, 0, 0], [9, 5, 2, 1], [25, 17, 4, 1]][octets / 2];
    (0..width * height)
        .map(|_| {
            let shift = shifts[random.below(4)];
            let word = random.next() >> (64 - bits);
            if least < 0 {
                ((word << (64 - bits)) as i64 >> (64 - bits)) >> shift
            } else {
                (word >> shift) as i64
            }
        })
        .collect()
}

/// Poisson counts of one mean: the chance of each number and of all below it.
struct Counts(Vec<f64>);

impl Counts {
    fn new(mean: f64) -> Self {
        let (mut chance, mut sum) = ((-mean).exp(), 0.0);
        let numbers = 1..=(2.0 * mean) as usize + 20;
        Counts(
            numbers
                .map(|number| {
                    sum += chance;
                    chance *= mean / number as f64;
                    sum
                })
                .collect(),
        )
    }

    fn next(&self, random: &mut Random) -> i64 {
        let unit = random.unit();
        self.0.partition_point(|&sum| sum < unit) as i64
    }
}

/// Poisson background whose mean is 200 and goes smoothly from 140 to 260, in whole steps; 5 % of the pixels are in
/// peaks of 3 × 3 (heights e^5 to e^9, a half of that beside the middle and a quarter in the corners), so that 5 % of
/// the differences take three octets and none takes more. Counts are cut to the type.
fn strong(element_type: u8, (width, height): Size, random: &mut Random) -> Vec<i64> {
    let (_, greatest, _) = range(element_type).unwrap();
    let counts: Vec<Counts> = (0..=260).map(|mean| Counts::new(f64::from(mean))).collect();
    let wave = |at, of| (std::f64::consts::TAU * at as f64 / of as f64).sin();
    let columns: Vec<f64> = (0..width).map(|x| wave(x, width)).collect();
    let mut pixels = Vec::with_capacity(width * height);
    for y in 0..height {
        let row = 60.0 * wave(y, height);
        let means = columns.iter().map(|column| 200.0 + row * column);
        pixels.extend(means.map(|mean| counts[mean.round() as usize].next(random)));
    }
    for _ in 0..width * height / 180 {
        let (x, y) = (random.below(width - 2), random.below(height - 2));
        let peak = (5.0 + 4.0 * random.unit()).exp() as i64;
        for (row, shifts) in [[2, 1, 2], [1, 0, 1], [2, 1, 2]].into_iter().enumerate() {
            for (pixel, shift) in pixels[(y + row) * width + x..].iter_mut().zip(shifts) {
                *pixel += peak >> shift;
            }
        }
    }
    pixels.iter().map(|&p| p.min(greatest)).collect()
}

/// 99 % zeros; the other pixels are 1 and a Poisson count of mean 2.
fn sparse((width, height): Size, random: &mut Random) -> Vec<i64> {
    let mut pixel = || match random.below(100) {
        0 => 1 + random.poisson(2.0),
        _ => 0,
    };
    (0..width * height).map(|_| pixel()).collect()
}

/// Poisson background of mean 5; every tenth run of 64 pixels is -1, or the greatest pixel in unsigned types.
fn mask(element_type: u8, (width, height): Size, random: &mut Random) -> Vec<i64> {
    let (least, greatest, _) = range(element_type).unwrap();
    let masked = if least < 0 { -1 } else { greatest };
    let mut pixel = |at| match at / 64 % 10 {
        9 => masked,
        _ => random.poisson(5.0),
    };
    (0..width * height).map(|at| pixel(at)).collect()
}

/// A detector-like frame of s32, another for each number.
pub fn exposure(number: usize) -> Vec<i64> {
    detector(6, SMALL, &mut Random::new(1_000 + number as u64))
}

/// A large frame of s32: the same exposure in each place, and -1 in the gaps.
pub fn large() -> Vec<i64> {
    let frame = exposure(0);
    let mut pixels = vec![-1; LARGE.0 * LARGE.1];
    for (y, line) in pixels.chunks_mut(LARGE.0).enumerate() {
        let row = y % (HEIGHT + 17);
        if row < HEIGHT {
            for part in line.chunks_mut(WIDTH + 7) {
                part[..WIDTH].copy_from_slice(&frame[row * WIDTH..][..WIDTH]);
            }
        }
    }
    pixels
}

/// A frame of 487 × 619 pixels.
pub fn frame(kind: &str, element_type: u8) -> Vec<i64> {
    sized(kind, element_type, SMALL)
}

pub fn sized(kind: &str, element_type: u8, size: Size) -> Vec<i64> {
    let mut random = Random::new(7);
    match kind {
        "detector" => detector(element_type, size, &mut random),
        "noise" => noise(element_type, size, &mut random),
        "strong" => strong(element_type, size, &mut random),
        "sparse" => sparse(size, &mut random),
        "mask" => mask(element_type, size, &mut random),
        _ => panic!("frames are detector, noise, strong, sparse and mask"),
    }
}
