//! A frame that one can look at: a PGM image of 16 bits.

use crate::frame::{shape, Type};
use crate::room;
use crate::trouble::{shown, Trouble};
use mooringelm::Section;
use std::ffi::OsStr;

const WHITE: i128 = 65_535;

/// Least and greatest of the pixels that count, which are scaled to 0 and 65,535. Those below 0 and, in an unsigned
/// type, those of the type's greatest value are customary masks and do not count, unless there are no others.
fn ends(kind: &Type, pixels: &[i64]) -> (i64, i64) {
    let span = |pixels: &mut dyn Iterator<Item = i64>| {
        pixels.fold(None, |ends: Option<(i64, i64)>, pixel| {
            let (least, greatest) = ends.unwrap_or((pixel, pixel));
            Some((least.min(pixel), greatest.max(pixel)))
        })
    };
    let counts = |pixel: &i64| *pixel >= 0 && (kind.signed || *pixel < kind.greatest());
    let some = span(&mut pixels.iter().copied().filter(counts));
    some.or_else(|| span(&mut pixels.iter().copied()))
        .unwrap_or((0, 0))
}

pub fn image(
    name: &OsStr,
    number: usize,
    section: &Section,
    pixels: &[i64],
) -> Result<Vec<u8>, Trouble> {
    if pixels.is_empty() {
        let name = shown(name);
        return Err(Trouble::Refused(format!(
            "{name}: section {number} has no pixels, and an image needs one; take --as npy"
        )));
    }
    let width = *shape(section).last().expect("a shape has a dimension");
    let height = pixels.len() / width;
    let mut image = format!("P5\n{width} {height}\n65535\n").into_bytes();
    room::more(&mut image, 2 * pixels.len())?;
    let (least, greatest) = ends(Type::of(section), pixels);
    let range = i128::from(greatest - least).max(1);
    for &pixel in pixels {
        let grey = match (least..=greatest).contains(&pixel) {
            true => (i128::from(pixel - least) * WHITE + range / 2) / range,
            false => 0,
        };
        image.extend_from_slice(&(grey as u16).to_be_bytes());
    }
    Ok(image)
}

#[cfg(test)]
mod tests {
    use super::*;

    fn section(elements: usize, dimensions: [u32; 3], element_type: u8) -> Section {
        Section {
            span: 0..0,
            position: 0,
            size: 0,
            elements,
            id: 0,
            dimensions,
            name: 0..0,
            compression: 0,
            element_type,
            encoding: 0,
        }
    }

    #[test]
    fn images_are_scaled() {
        let of = section(6, [3, 2, 0], 6);
        let image = image(OsStr::new("f"), 1, &of, &[-1, 10, 20, 30, -2, 15]).unwrap();
        let mut wanted = b"P5\n3 2\n65535\n".to_vec();
        for grey in [0u16, 0, 32768, 65535, 0, 16384] {
            wanted.extend_from_slice(&grey.to_be_bytes());
        }
        assert_eq!(image, wanted);
    }

    #[test]
    fn masks_do_not_count() {
        let of = section(3, [0, 0, 0], 3);
        assert_eq!(ends(Type::of(&of), &[5, 65535, 7]), (5, 7));
        assert_eq!(ends(Type::of(&of), &[65535, 65535]), (65535, 65535));
        let signed = section(3, [0, 0, 0], 4);
        assert_eq!(ends(Type::of(&signed), &[-5, -3]), (-5, -3));
        assert_eq!(ends(Type::of(&signed), &[-5, 32767, 0]), (0, 32767));
    }
}
