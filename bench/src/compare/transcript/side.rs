//! The calls that a transcript is made of, by whoever answers them: the library through C, or the reference.

use crate::reference::reader::{self, Refusal};
use crate::reference::{replacement, sections};
use mooringelm::Answer;

/// Bytes that a call writes or finds.
pub type Octets = Result<Vec<u8>, Refusal>;
pub type Pixels = Result<Vec<i64>, Refusal>;

/// Sections are numbered from 1; room is in bytes or in pixels.
pub trait Side {
    fn listing(&self, file: &[u8], room: usize) -> Octets;
    fn catalogue(&self, file: &[u8], room: usize) -> Octets;
    fn octets(&self, file: &[u8], number: usize) -> Octets;
    fn unpack(&self, file: &[u8], number: usize, room: usize) -> Pixels;
    fn replace(&self, file: &[u8], number: usize, frame: &[i64], room: usize) -> Octets;
}

/// The library's functions for C.
pub struct Library;

fn pair(refusal: mooringelm::Refusal) -> Refusal {
    (refusal.number, refusal.place)
}

/// What a call gives that is lent so much memory.
fn lent<T: Copy + Default>(
    room: usize,
    call: impl FnOnce(&mut [T]) -> Answer,
) -> Result<Vec<T>, Refusal> {
    let mut out = vec![T::default(); room];
    let length = call(&mut out).map_err(pair)?;
    out.truncate(length);
    Ok(out)
}

impl Side for Library {
    fn listing(&self, file: &[u8], room: usize) -> Octets {
        lent(room, |out| mooringelm::listing(file, out))
    }

    fn catalogue(&self, file: &[u8], room: usize) -> Octets {
        lent(room, |out| mooringelm::catalogue(file, out))
    }

    fn octets(&self, file: &[u8], number: usize) -> Octets {
        let octets = mooringelm::octets(file, number);
        octets.map(<[u8]>::to_vec).map_err(pair)
    }

    fn unpack(&self, file: &[u8], number: usize, room: usize) -> Pixels {
        lent(room, |pixels| mooringelm::unpack(file, number, pixels))
    }

    fn replace(&self, file: &[u8], number: usize, frame: &[i64], room: usize) -> Octets {
        lent(room, |out| mooringelm::replace(file, number, frame, out))
    }
}

/// The reader and the reference, in straightforward Rust.
pub struct Reference;

/// 15 where there is less room.
fn fits<T>(answer: Vec<T>, room: usize) -> Result<Vec<T>, Refusal> {
    if answer.len() > room {
        return Err((15, 0));
    }
    Ok(answer)
}

impl Side for Reference {
    fn listing(&self, file: &[u8], room: usize) -> Octets {
        fits(reader::listing(&reader::read(file)?), room)
    }

    fn catalogue(&self, file: &[u8], room: usize) -> Octets {
        fits(reader::catalogue(&reader::read(file)?)?, room)
    }

    fn octets(&self, file: &[u8], number: usize) -> Octets {
        let (start, length) = sections::octets(&reader::read(file)?, number)?;
        Ok(file[start..][..length].to_vec())
    }

    fn unpack(&self, file: &[u8], number: usize, room: usize) -> Pixels {
        fits(sections::pixels(file, &reader::read(file)?, number)?, room)
    }

    fn replace(&self, file: &[u8], number: usize, frame: &[i64], room: usize) -> Octets {
        let edit = replacement::edit(file, &reader::read(file), number, frame)?;
        fits(edit.made(file), room)
    }
}
