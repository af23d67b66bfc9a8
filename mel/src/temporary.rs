//! The temporary file beside a file that is written: steps 6 to 8, 10 and 11 of docs/ON-DISK.md.

use crate::progress;
use crate::sys;
use std::collections::hash_map::RandomState;
use std::ffi::{OsStr, OsString};
use std::fs::{self, File, OpenOptions, Permissions};
use std::hash::{BuildHasher, Hasher};
use std::io::{self, Write};
use std::os::unix::ffi::{OsStrExt, OsStringExt};
use std::os::unix::fs::{fchown, MetadataExt, OpenOptionsExt, PermissionsExt};
use std::path::{Path, PathBuf};

/// What follows the dot, the name and `.mel-`, and how much of the name there is room for.
const DIGITS: usize = 16;
const NAME_LIMIT: usize = 233;
const PART: usize = 1 << 24;

/// A temporary file, locked by us. It is removed unless it gets its name.
pub struct Temporary {
    file: File,
    path: PathBuf,
    named: bool,
}

fn prefix(name: &OsStr) -> Vec<u8> {
    let name = name.as_bytes();
    [b".", &name[..name.len().min(NAME_LIMIT)], b".mel-"].concat()
}

/// Whether the name leads to the open file.
fn leads(path: &Path, file: &File) -> io::Result<bool> {
    let (named, open) = (fs::symlink_metadata(path)?, file.metadata()?);
    Ok((named.dev(), named.ino()) == (open.dev(), open.ino()))
}

/// Removes the temporary files of that name whose writers are gone. Failures are passed over.
fn clean_up(folder: &Path, name: &OsStr) {
    let prefix = prefix(name);
    for entry in fs::read_dir(folder).into_iter().flatten().flatten() {
        let found = entry.file_name();
        let Some(digits) = found.as_bytes().strip_prefix(&prefix[..]) else {
            continue;
        };
        let digit = |byte: &u8| matches!(byte, b'0'..=b'9' | b'a'..=b'f');
        let regular = entry.file_type().is_ok_and(|kind| kind.is_file());
        if regular && digits.len() == DIGITS && digits.iter().all(digit) {
            let _ = remove_if_left(&entry.path());
        }
    }
}

fn remove_if_left(path: &Path) -> io::Result<()> {
    let file = File::open(path)?;
    match sys::try_lock(&file)? && leads(path, &file)? {
        true => fs::remove_file(path),
        false => Ok(()),
    }
}

impl Temporary {
    pub fn create(folder: &Path, name: &OsStr, mode: u32) -> io::Result<Temporary> {
        clean_up(folder, name);
        loop {
            let random = RandomState::new().build_hasher().finish();
            let mut own = prefix(name);
            write!(own, "{random:016x}")?;
            let path = folder.join(OsString::from_vec(own));
            let mut options = OpenOptions::new();
            let options = options.read(true).write(true).create_new(true).mode(mode);
            let file = match options.open(&path) {
                Err(error) if error.kind() == io::ErrorKind::AlreadyExists => continue,
                file => file?,
            };
            let temporary = Temporary {
                file,
                path,
                named: false,
            };
            // Between creation and lock somebody may have taken it for one that was left behind.
            if sys::try_lock(&temporary.file)?
                && leads(&temporary.path, &temporary.file).unwrap_or(false)
            {
                return Ok(temporary);
            }
        }
    }

    pub fn write(&mut self, bytes: &[u8], what: &str) -> io::Result<()> {
        for (at, part) in bytes.chunks(PART).enumerate() {
            progress::stage(what, at * PART, bytes.len());
            self.file.write_all(part)?;
        }
        Ok(())
    }

    /// Gives it owner, group, mode and attributes of another file, as far as the system allows. That comes before it is
    /// written, so that whoever may edit the file may open, and remove, what a kill leaves behind.
    pub fn resemble(&self, old: &File) -> io::Result<()> {
        let of = old.metadata()?;
        if fchown(&self.file, Some(of.uid()), Some(of.gid())).is_err() {
            let _ = fchown(&self.file, None, Some(of.gid()));
        }
        let mode = Permissions::from_mode(of.mode() & 0o7777);
        self.file.set_permissions(mode)?;
        sys::copy_attributes(old, &self.file);
        Ok(())
    }

    pub fn sync(&self) -> io::Result<()> {
        self.file.sync_all()
    }

    /// Puts it in the place of the file. The lock stays until the one who asked drops the answer.
    pub fn rename(mut self, target: &Path) -> io::Result<Temporary> {
        fs::rename(&self.path, target)?;
        self.named = true;
        Ok(self)
    }
}

impl Drop for Temporary {
    fn drop(&mut self) {
        if !self.named {
            let _ = fs::remove_file(&self.path);
        }
    }
}

/// Flushes the names of a folder to the disk, where the system does that.
pub fn sync_folder(folder: &Path) -> io::Result<()> {
    match File::open(folder)?.sync_all() {
        Err(error) if error.kind() == io::ErrorKind::InvalidInput => Ok(()),
        done => done,
    }
}
