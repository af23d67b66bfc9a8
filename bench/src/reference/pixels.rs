//! Pixels packed and unpacked, and the peer in the tables of speed.

pub const PIXEL_LIMIT: usize = 67_108_864;

/// The element types, from number 1 on.
pub const TYPES: [&str; 6] = ["u8", "s8", "u16", "s16", "u32", "s32"];

/// Least and greatest pixel of an element type, and its octets.
pub fn range(element_type: u8) -> Option<(i64, i64, usize)> {
    match element_type {
        1 => Some((0, 255, 1)),
        2 => Some((-128, 127, 1)),
        3 => Some((0, 65_535, 2)),
        4 => Some((-32_768, 32_767, 2)),
        5 => Some((0, 4_294_967_295, 4)),
        6 => Some((-2_147_483_648, 2_147_483_647, 4)),
        _ => None,
    }
}

/// The escape of a width, and whether it holds a difference.
const WIDTHS: [(usize, i64); 4] = [(1, 1 << 7), (2, 1 << 15), (4, 1 << 31), (8, i64::MIN)];

/// The difference written in the first width that holds it, but in none before `narrowest`.
pub fn put_difference(d: i64, narrowest: usize, out: &mut Vec<u8>) {
    for (at, &(width, half)) in WIDTHS.iter().enumerate() {
        if at == 3 || (at >= narrowest && -half < d && d < half) {
            out.extend_from_slice(&d.to_le_bytes()[..width]);
            return;
        }
        out.extend_from_slice(&half.to_le_bytes()[..width]);
    }
}

#[inline(always)] // For the peer, as difference is.
fn little(octets: &[u8]) -> i64 {
    let mut word = if octets[octets.len() - 1] >= 128 {
        [255; 8]
    } else {
        [0; 8]
    };
    word[..octets.len()].copy_from_slice(octets);
    i64::from_le_bytes(word)
}

/// The difference at `at`, and where the next one starts.
#[inline(always)] // The peer's speed is not to hang on how many callers there are.
fn difference(octets: &[u8], mut at: usize) -> Option<(i64, usize)> {
    for (index, &(width, half)) in WIDTHS.iter().enumerate() {
        let d = little(octets.get(at..at + width)?);
        at += width;
        if index == 3 || d != -half {
            return Some((d, at));
        }
    }
    None
}

pub fn pack(element_type: u8, pixels: &[i64], room: usize) -> Result<Vec<u8>, (u32, u32)> {
    let Some((least, greatest, _)) = range(element_type) else {
        return Err((14, 0));
    };
    if pixels.len() > PIXEL_LIMIT || pixels.iter().any(|&p| p < least || p > greatest) {
        return Err((14, 0));
    }
    let mut out = Vec::with_capacity(pixels.len() * 2);
    let mut last = 0;
    for &p in pixels {
        put_difference(p - last, 0, &mut out);
        last = p;
    }
    if out.len() > room {
        return Err((15, 0));
    }
    Ok(out)
}

fn unpack_byte_offset(octets: &[u8], count: usize, least: i64, greatest: i64) -> Option<Vec<i64>> {
    let mut pixels = Vec::with_capacity(count.min(octets.len()));
    let (mut at, mut last) = (0, 0i64);
    for _ in 0..count {
        let (d, next) = difference(octets, at)?;
        last = last.checked_add(d)?;
        if last < least || last > greatest {
            return None;
        }
        at = next;
        pixels.push(last);
    }
    (at == octets.len()).then_some(pixels)
}

fn unpack_uncompressed(octets: &[u8], count: usize, least: i64, width: usize) -> Option<Vec<i64>> {
    if octets.len() != width * count {
        return None;
    }
    let signed = |part: &[u8]| little(part);
    let unsigned = |part: &[u8]| part.iter().rev().fold(0i64, |n, &o| n << 8 | i64::from(o));
    let parts = octets.chunks_exact(width);
    Some(if least < 0 {
        parts.map(signed).collect()
    } else {
        parts.map(unsigned).collect()
    })
}

pub fn unpack(
    element_type: u8,
    compression: u8,
    octets: &[u8],
    count: usize,
    room: usize,
) -> Result<Vec<i64>, (u32, u32)> {
    let Some((least, greatest, width)) = range(element_type) else {
        return Err((13, 0));
    };
    if count > PIXEL_LIMIT {
        return Err((13, 0));
    }
    let pixels = match compression {
        0 => unpack_uncompressed(octets, count, least, width),
        1 => unpack_byte_offset(octets, count, least, greatest),
        _ => None,
    };
    match pixels {
        None => Err((13, 0)),
        Some(_) if count > room => Err((15, 0)),
        Some(pixels) => Ok(pixels),
    }
}

/// The peer in the table of speeds: the same guarantees, in two plain passes over slices.
pub mod peer {
    use super::{difference, little, range};

    pub fn unpack(
        element_type: u8,
        octets: &[u8],
        count: usize,
        out: &mut [i64],
    ) -> Result<usize, u32> {
        let (least, greatest, _) = range(element_type).ok_or(13u32)?;
        let (mut at, mut last) = (0, 0i64);
        for _ in 0..count {
            let (d, next) = difference(octets, at).ok_or(13u32)?;
            last = last.checked_add(d).ok_or(13u32)?;
            if last < least || last > greatest {
                return Err(13);
            }
            at = next;
        }
        if at != octets.len() {
            return Err(13);
        }
        if out.len() < count {
            return Err(15);
        }
        let (mut at, mut last) = (0, 0i64);
        for pixel in &mut out[..count] {
            let (d, next) = difference(octets, at).ok_or(13u32)?;
            last += d;
            at = next;
            *pixel = last;
        }
        Ok(count)
    }

    pub fn unpack_uncompressed(
        element_type: u8,
        octets: &[u8],
        count: usize,
        out: &mut [i64],
    ) -> Result<usize, u32> {
        let (least, greatest, width) = range(element_type).ok_or(13u32)?;
        if octets.len() != width * count {
            return Err(13);
        }
        let out = out.get_mut(..count).ok_or(15u32)?;
        // An unsigned pixel is a signed one without the bits above its width.
        let bits = if least < 0 { -1 } else { greatest };
        for (pixel, part) in out.iter_mut().zip(octets.chunks_exact(width)) {
            *pixel = little(part) & bits;
        }
        Ok(count)
    }

    fn size(d: i64) -> usize {
        match d.unsigned_abs() {
            0..=127 => 1,
            128..=32_767 => 3,
            32_768..=2_147_483_647 => 7,
            _ => 15,
        }
    }

    pub fn pack(element_type: u8, pixels: &[i64], out: &mut [u8]) -> Result<usize, u32> {
        let (least, greatest, _) = range(element_type).ok_or(14u32)?;
        let (mut total, mut last) = (0, 0i64);
        for &p in pixels {
            if p < least || p > greatest {
                return Err(14);
            }
            total += size(p - last);
            last = p;
        }
        if out.len() < total {
            return Err(15);
        }
        let (mut at, mut last) = (0, 0i64);
        for &p in pixels {
            let d = p - last;
            last = p;
            let n = size(d);
            let part = &mut out[at..at + n];
            match n {
                1 => part[0] = d as u8,
                3 => {
                    part[0] = 0x80;
                    part[1..].copy_from_slice(&(d as i16).to_le_bytes());
                }
                7 => {
                    part[..3].copy_from_slice(&[0x80, 0x00, 0x80]);
                    part[3..].copy_from_slice(&(d as i32).to_le_bytes());
                }
                _ => {
                    part[..7].copy_from_slice(&[0x80, 0x00, 0x80, 0x00, 0x00, 0x00, 0x80]);
                    part[7..].copy_from_slice(&d.to_le_bytes());
                }
            }
            at += n;
        }
        Ok(total)
    }
}
