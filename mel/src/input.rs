//! Files are read into memory once: what is lent to the library must not change during a call, and another program may
//! write to a file that is mapped.

use crate::progress;
use crate::trouble::{shown, Trouble};
use mooringelm::{Refusal, FILE_LIMIT, PIXEL_LIMIT};
use std::ffi::OsStr;
use std::fs::{File, Metadata};
use std::io::{self, Read};
use std::os::unix::fs::MetadataExt;

const PART: usize = 1 << 24;
/// Eight bytes for each pixel that a section can have, and a header.
const FRAME_LIMIT: usize = 8 * PIXEL_LIMIT + (1 << 20);

/// A CBF file as a whole, `-` for standard input.
pub fn cbf(name: &OsStr) -> Result<Vec<u8>, Trouble> {
    if name == "-" {
        return stream(name, io::stdin().lock(), 0);
    }
    open_cbf(name, &File::open(name).map_err(|e| cannot(name, &e))?)
}

/// A CBF file that is open, from its start. One that changes meanwhile is no answer.
pub fn open_cbf(name: &OsStr, file: &File) -> Result<Vec<u8>, Trouble> {
    let before = file.metadata().map_err(|e| cannot(name, &e))?;
    if before.is_file() && before.len() > FILE_LIMIT as u64 {
        return Err(too_long(name));
    }
    let bytes = stream(name, file, before.len() as usize)?;
    let after = file.metadata().map_err(|e| cannot(name, &e))?;
    if before.is_file() && state(&before) != state(&after) {
        let name = shown(name);
        return Err(Trouble::System(format!(
            "{name}: changed while it was read, by a program that writes straight over it; \
             run this again when it is done"
        )));
    }
    Ok(bytes)
}

/// A frame or a mask as a whole, `-` for standard input.
pub fn other(name: &OsStr) -> Result<Vec<u8>, Trouble> {
    let (mut bytes, limit) = (Vec::new(), FRAME_LIMIT as u64 + 1);
    let done = if name == "-" {
        io::stdin().lock().take(limit).read_to_end(&mut bytes)
    } else {
        File::open(name).and_then(|file| file.take(limit).read_to_end(&mut bytes))
    };
    done.map_err(|e| cannot(name, &e))?;
    match bytes.len() <= FRAME_LIMIT {
        true => Ok(bytes),
        false => Err(Trouble::Refused(format!(
            "{}: it has more bytes than a frame can have; give an array of the section's shape",
            shown(name)
        ))),
    }
}

/// What tells that a file is as it was: device, inode, size, and time of change.
pub fn state(of: &Metadata) -> (u64, u64, u64, i64, i64) {
    (of.dev(), of.ino(), of.len(), of.mtime(), of.mtime_nsec())
}

fn cannot(name: &OsStr, error: &io::Error) -> Trouble {
    Trouble::system(name, "cannot be read", error)
}

/// What the library says of a file that is too long, without reading it.
fn too_long(name: &OsStr) -> Trouble {
    Trouble::refusal(
        name,
        Refusal {
            number: 4,
            place: 0,
            item: 0,
        },
    )
}

/// All that comes, at most the limit; the whole is 0 where its length is not known.
fn stream(name: &OsStr, from: impl Read, whole: usize) -> Result<Vec<u8>, Trouble> {
    let text = format!("reading {}", shown(name));
    let mut bytes = Vec::new();
    let mut room = whole + 1;
    let mut from = from.take(FILE_LIMIT as u64 + 1);
    loop {
        progress::stage(&text, bytes.len(), whole);
        if bytes.try_reserve(room).is_err() {
            let name = shown(name);
            return Err(Trouble::System(format!(
                "{name}: not enough memory to read it"
            )));
        }
        room = PART;
        let got = from.by_ref().take(PART as u64).read_to_end(&mut bytes);
        match got.map_err(|e| cannot(name, &e))? {
            0 => return Ok(bytes),
            _ if bytes.len() > FILE_LIMIT => return Err(too_long(name)),
            _ => {}
        }
    }
}
