//! Pixels by chance, and octets of pixels in any widths.

use super::random::Random;
use crate::reference::pixels::put_difference;

/// Numbers at the edges of the widths and of the types.
const EDGES: [i64; 12] = [
    0,
    1,
    127,
    128,
    255,
    256,
    32_767,
    32_768,
    65_535,
    2_147_483_647,
    2_147_483_648,
    4_294_967_295,
];

/// A pixel of the type, in one of several ways.
fn pixel(way: usize, last: i64, least: i64, greatest: i64, random: &mut Random) -> i64 {
    let edge = EDGES[random.below(EDGES.len())] * if random.below(2) == 0 { 1 } else { -1 };
    let size = greatest - least + 1;
    let p = match way {
        0 => last + random.below(9) as i64 - 4,
        1 => last + random.below(255) as i64 - 127,
        2 => last + edge,
        3 => edge,
        4 => least + (random.next() % size as u64) as i64,
        _ => [least, greatest, 0][random.below(3)],
    };
    p.clamp(least, greatest)
}

/// Pixels from least to greatest, near to each other and far.
pub fn pixels(n: usize, least: i64, greatest: i64, random: &mut Random) -> Vec<i64> {
    let way = random.below(8);
    let mut last = 0;
    (0..n)
        .map(|_| {
            // Ways 6 and 7 are mostly plain, with one far pixel now and then.
            let at = if way < 6 {
                way
            } else if random.below(40) == 0 {
                2
            } else {
                way - 6
            };
            last = pixel(at, last, least, greatest, random);
            last
        })
        .collect()
}

/// Octets of pixels, some of them wider than they need to be.
pub fn overlong(pixels: &[i64], random: &mut Random) -> Vec<u8> {
    let mut octets = Vec::new();
    let mut last = 0;
    let often = 1 + random.below(50);
    for &p in pixels {
        let narrowest = if random.below(often) == 0 {
            random.below(4)
        } else {
            0
        };
        put_difference(p - last, narrowest, &mut octets);
        last = p;
    }
    octets
}
