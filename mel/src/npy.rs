//! numpy's file format for arrays, `.npy`.

use crate::frame::{self, from_octets, tuple, Type};
use crate::trouble::{shown, Trouble};
use mooringelm::Section;
use std::ffi::OsStr;

const MAGIC: &[u8] = b"\x93NUMPY";

/// An array of whole numbers or truth values in C order.
pub struct Array {
    pub shape: Vec<usize>,
    pub values: Vec<i64>,
}

/// The bytes before the values of a section, of version 1.0: a multiple of 64.
pub fn head(section: &Section) -> Vec<u8> {
    let (descr, shape) = (Type::of(section).numpy, tuple(&frame::shape(section)));
    let mut text = format!("{{'descr': '{descr}', 'fortran_order': False, 'shape': {shape}, }}");
    while (MAGIC.len() + 4 + text.len() + 1) % 64 != 0 {
        text.push(' ');
    }
    text.push('\n');
    let mut head = MAGIC.to_vec();
    head.extend_from_slice(&[1, 0]);
    head.extend_from_slice(&(text.len() as u16).to_le_bytes());
    head.extend_from_slice(text.as_bytes());
    head
}

/// Reads an array; truth values only where they are wanted.
pub fn read(name: &OsStr, bytes: &[u8], truth: bool) -> Result<Array, Trouble> {
    parse(bytes, truth).map_err(|what| Trouble::Refused(format!("{}: {what}", shown(name))))
}

/// Fails unless the array has the section's shape or is flat.
pub fn fits(name: &OsStr, array: &Array, number: usize, section: &Section) -> Result<(), Trouble> {
    let shape = frame::shape(section);
    if array.shape == shape || array.shape.len() == 1 {
        return Ok(());
    }
    let (name, own, wanted) = (shown(name), tuple(&array.shape), tuple(&shape));
    Err(Trouble::Refused(format!(
        "{name}: its shape is {own}, that of section {number} is {wanted}; save it with numpy.reshape(a, {wanted})"
    )))
}

fn parse(bytes: &[u8], truth: bool) -> Result<Array, String> {
    let (text, data) = parts(bytes)?;
    let head = Head::read(text)
        .ok_or("its .npy header is not understood; save it again with numpy.save")?;
    if head.fortran {
        return Err("it is in Fortran order; save it with numpy.ascontiguousarray(a)".to_string());
    }
    let number = Number::named(&head.descr, truth).ok_or_else(|| {
        format!(
            "its type is {}, which is no whole number; save it with a.astype('<i4') or another integer type",
            head.descr.escape_debug()
        )
    })?;
    let count = head.shape.iter().try_fold(1usize, |n, &d| n.checked_mul(d));
    let wanted = count.and_then(|count| count.checked_mul(number.octets));
    if wanted != Some(data.len()) {
        let (shape, had) = (tuple(&head.shape), data.len());
        return Err(format!(
            "it holds {had} bytes of values, and its shape {shape} needs another number; copy or save it again"
        ));
    }
    let values = data.chunks_exact(number.octets);
    let values = values.map(|one| from_octets(one, number.signed, number.little));
    Ok(Array {
        shape: head.shape,
        values: values.collect(),
    })
}

/// The header's text and the values.
fn parts(bytes: &[u8]) -> Result<(&str, &[u8]), String> {
    let rest = bytes.strip_prefix(MAGIC).ok_or(
        "it is no .npy file; save it with numpy.save, or give --raw for plain little-endian numbers",
    )?;
    let (length, rest) = match *rest {
        [1, 0, a, b, ref rest @ ..] => (u16::from_le_bytes([a, b]) as usize, rest),
        [2 | 3, 0, a, b, c, d, ref rest @ ..] => (u32::from_le_bytes([a, b, c, d]) as usize, rest),
        _ => return Err("it has an unknown .npy version; save it again with numpy.save".into()),
    };
    let cut = "it ends inside its .npy header; copy or save it again";
    let (head, data) = rest.split_at_checked(length).ok_or(cut)?;
    let head = std::str::from_utf8(head)
        .map_err(|_| "its .npy header is no text; save it again with numpy.save")?;
    Ok((head, data))
}

/// The dictionary at the start of the file.
struct Head {
    descr: String,
    fortran: bool,
    shape: Vec<usize>,
}

impl Head {
    fn read(text: &str) -> Option<Head> {
        let mut rest = text.trim().strip_prefix('{')?.strip_suffix('}')?.trim();
        let (mut descr, mut fortran, mut shape) = (None, None, None);
        while !rest.is_empty() {
            let (key, after) = quoted(rest)?;
            let after = after.trim_start().strip_prefix(':')?.trim_start();
            let (value, after) = value(after)?;
            match key {
                "descr" => descr = Some(value.to_string()),
                "fortran_order" => fortran = Some(value),
                "shape" => shape = Some(numbers(value)?),
                _ => return None,
            }
            let after = after.trim_start();
            rest = after.strip_prefix(',').unwrap_or(after).trim_start();
        }
        let fortran = match fortran? {
            "True" => true,
            "False" => false,
            _ => return None,
        };
        Some(Head {
            descr: descr?,
            fortran,
            shape: shape?,
        })
    }
}

/// A text in single or double quotes, and what follows it.
fn quoted(text: &str) -> Option<(&str, &str)> {
    let quote = text.chars().next().filter(|c| matches!(c, '\'' | '"'))?;
    text[1..].split_once(quote)
}

/// A value of the dictionary (a list, as of a structured type, as it stands), and what follows it.
fn value(text: &str) -> Option<(&str, &str)> {
    let end = match text.chars().next()? {
        '\'' | '"' => return quoted(text),
        '(' => text.find(')')? + 1,
        '[' => text.rfind(']')? + 1,
        _ => text.find(',').unwrap_or(text.len()),
    };
    Some((text[..end].trim_end(), &text[end..]))
}

fn numbers(tuple: &str) -> Option<Vec<usize>> {
    let inner = tuple.strip_prefix('(')?.strip_suffix(')')?.trim();
    let inner = inner.strip_suffix(',').unwrap_or(inner);
    if inner.is_empty() {
        return Some(Vec::new());
    }
    let parts = inner.split(',').map(|part| part.trim().parse().ok());
    parts.collect()
}

/// How a value is stored.
struct Number {
    octets: usize,
    signed: bool,
    little: bool,
}

impl Number {
    fn named(descr: &str, truth: bool) -> Option<Number> {
        let mut letters = descr.chars();
        let order = letters.next()?;
        let kind = letters.next()?;
        let octets: usize = letters.as_str().parse().ok()?;
        let known = match kind {
            'i' | 'u' => matches!(octets, 1 | 2 | 4 | 8),
            'b' => truth && octets == 1,
            _ => false,
        };
        let ordered = matches!(order, '<' | '>') || (order == '|' && octets == 1);
        (known && ordered).then_some(Number {
            octets,
            signed: kind == 'i',
            little: order != '>',
        })
    }
}

#[cfg(test)]
mod tests {
    use super::*;

    fn file(version: u8, head: &str, data: &[u8]) -> Vec<u8> {
        let mut bytes = MAGIC.to_vec();
        bytes.extend_from_slice(&[version, 0]);
        let length = (head.len() as u32).to_le_bytes();
        bytes.extend_from_slice(&length[..if version == 1 { 2 } else { 4 }]);
        bytes.extend_from_slice(head.as_bytes());
        bytes.extend_from_slice(data);
        bytes
    }

    #[test]
    fn arrays_are_read() {
        let head = "{'descr': '>i2', 'fortran_order': False, 'shape': (1, 2), }   \n";
        for version in 1..=3 {
            let array = parse(&file(version, head, &[0xff, 0xfe, 0, 5]), false).unwrap();
            assert_eq!((array.shape, array.values), (vec![1, 2], vec![-2, 5]));
        }
        let scalar = "{'descr': '|u1', 'fortran_order': False, 'shape': ()}\n";
        let array = parse(&file(1, scalar, &[200]), false).unwrap();
        assert_eq!((array.shape, array.values), (vec![], vec![200]));
    }

    #[test]
    fn others_are_refused() {
        let said = |descr: &str, order: &str, data: &[u8]| {
            let head = format!("{{'descr': {descr}, 'fortran_order': {order}, 'shape': (1,), }}\n");
            parse(&file(1, &head, data), false).err().unwrap()
        };
        assert!(said("'<f8'", "False", &[0; 8]).contains("astype"));
        assert!(said("'|b1'", "False", &[0]).contains("astype"));
        assert!(said("[('a', '<i4'), ('b', '<i4')]", "False", &[0; 8]).contains("astype"));
        assert!(said("'<i4'", "True", &[0; 4]).contains("ascontiguousarray"));
        assert!(said("'<i4'", "False", &[0; 3]).contains("3 bytes"));
        assert!(said("'<i4'", "Maybe", &[0; 4]).contains("not understood"));
        for end in 0..20 {
            let whole = file(1, "{'descr': '|i1', ", &[]);
            assert!(parse(&whole[..end.min(whole.len())], false).is_err());
        }
    }
}
