//! Files that are written: held by a lock, and replaced as a whole by a rename. docs/ON-DISK.md has the steps.

use crate::args::Args;
use crate::input;
use crate::progress;
use crate::sys;
use crate::temporary::{sync_folder, Temporary};
use crate::trouble::{because, shown, Trouble};
use std::ffi::{OsStr, OsString};
use std::fs::{self, File, Metadata, OpenOptions};
use std::io::{self, ErrorKind, Write};
use std::os::unix::fs::MetadataExt;
use std::path::{Path, PathBuf};
use std::thread;
use std::time::{Duration, Instant};

const WAIT: Duration = Duration::from_secs(10);
const LONGEST_PAUSE: Duration = Duration::from_millis(16);

/// How long a lock is waited for.
pub fn wait(args: &Args) -> Result<Duration, Trouble> {
    let Some(word) = args.value("wait") else {
        return Ok(WAIT);
    };
    let seconds = word.to_str().and_then(|word| word.parse().ok());
    match seconds.filter(|s| (0.0..=1e6).contains(s)) {
        Some(seconds) => Ok(Duration::from_secs_f64(seconds)),
        None => Err(args.usage(&format!(
            "--wait takes seconds, 0 or more, not {}",
            shown(word)
        ))),
    }
}

/// A file that is held by its lock, so that no other editor changes it.
pub struct Held {
    name: OsString,
    target: PathBuf,
    file: File,
}

impl Held {
    /// Steps 1 to 4: resolve, open, lock, and look whether the name still leads to the same file.
    pub fn take(name: &OsStr, wait: Duration) -> Result<Held, Trouble> {
        let until = Instant::now() + wait;
        loop {
            let (target, file) = open(name)?;
            lock(name, &file, until)?;
            if still_leads(name, &target, &file) {
                let name = name.to_os_string();
                return Ok(Held { name, target, file });
            }
        }
    }

    /// Step 5: all of it, and what tells at the end that nobody has written to it meanwhile.
    pub fn read(&self) -> Result<(Vec<u8>, Metadata), Trouble> {
        let bytes = input::open_cbf(&self.name, &self.file)?;
        let seen = self.file.metadata();
        Ok((bytes, seen.map_err(|e| failed(&self.name, &e))?))
    }

    /// Steps 6 to 11. Nothing has happened to the file where this fails before the rename.
    pub fn put(&self, bytes: &[u8], seen: Option<&Metadata>) -> Result<(), Trouble> {
        let (folder, own) = parts(&self.target);
        let fail = |error: io::Error| failed(&self.name, &error);
        let mut temporary = Temporary::create(folder, own, 0o600).map_err(fail)?;
        temporary.resemble(&self.file).map_err(fail)?;
        let what = format!("writing {}", shown(&self.name));
        temporary.write(bytes, &what).map_err(fail)?;
        temporary.sync().map_err(fail)?;
        self.last_look(seen)?;
        let _lock = temporary.rename(&self.target).map_err(fail)?;
        sync_folder(folder).map_err(|error| not_flushed(&self.name, &error))
    }

    /// Step 9: whether a program that takes no lock was here.
    fn last_look(&self, seen: Option<&Metadata>) -> Result<(), Trouble> {
        let now = fs::symlink_metadata(&self.target);
        let good = match (seen, &now) {
            (Some(seen), Ok(now)) => input::state(seen) == input::state(now),
            (None, Ok(now)) => self.file.metadata().is_ok_and(|open| same(&open, now)),
            (_, Err(_)) => false,
        };
        if good {
            return Ok(());
        }
        let name = shown(&self.name);
        Err(Trouble::System(format!(
            "{name}: not changed, since a program that takes no lock wrote or moved it meanwhile; run this again"
        )))
    }
}

fn same(a: &Metadata, b: &Metadata) -> bool {
    (a.dev(), a.ino()) == (b.dev(), b.ino())
}

/// Steps 1 and 2: the file behind all symbolic links, open for writing, though nothing is written through it.
pub fn open(name: &OsStr) -> Result<(PathBuf, File), Trouble> {
    let cannot = |error: io::Error| {
        Trouble::System(format!(
            "{}: cannot be opened for an edit: {}; write to another file with -o OUT",
            shown(name),
            because(&error)
        ))
    };
    let target = match fs::canonicalize(name) {
        Err(error) if error.kind() == ErrorKind::NotFound => {
            return Err(Trouble::system(name, "cannot be edited", &error))
        }
        target => target.map_err(cannot)?,
    };
    let is = fs::metadata(&target).map_err(cannot)?;
    if !is.is_file() {
        let name = shown(name);
        return Err(Trouble::System(format!(
            "{name}: is no regular file and cannot be edited in place; name a file"
        )));
    }
    // Root may write any file; a file that nobody may write is meant to stay, for root too.
    if is.mode() & 0o222 == 0 {
        return Err(cannot(io::Error::from_raw_os_error(sys::EACCES)));
    }
    let file = OpenOptions::new().read(true).write(true).open(&target);
    Ok((target, file.map_err(cannot)?))
}

/// Step 3.
fn lock(name: &OsStr, file: &File, until: Instant) -> Result<(), Trouble> {
    let mut pause = Duration::from_millis(1);
    loop {
        let had = sys::try_lock(file).map_err(|error| {
            Trouble::System(format!(
                "{}: cannot be locked: {}; write to another file with -o OUT",
                shown(name),
                because(&error)
            ))
        })?;
        if had {
            return Ok(());
        }
        let left = until.saturating_duration_since(Instant::now());
        if left.is_zero() {
            return Err(Trouble::Busy(format!(
                "{}: busy, another program holds its lock; run this again, or wait longer with --wait S",
                shown(name)
            )));
        }
        progress::stage(&format!("waiting for the lock of {}", shown(name)), 0, 0);
        thread::sleep(pause.min(left));
        pause = LONGEST_PAUSE.min(2 * pause);
    }
}

/// Step 4.
fn still_leads(name: &OsStr, target: &Path, file: &File) -> bool {
    let resolved = fs::canonicalize(name).is_ok_and(|now| now == target);
    let here = fs::symlink_metadata(target);
    resolved && here.is_ok_and(|here| file.metadata().is_ok_and(|open| same(&here, &open)))
}

/// The folder and the name of a resolved file.
fn parts(target: &Path) -> (&Path, &OsStr) {
    let folder = target.parent().unwrap_or(Path::new("/"));
    (folder, target.file_name().unwrap_or_default())
}

/// Writes a whole file: in place of the one that is there, or as a new one.
pub fn write(name: &OsStr, bytes: &[u8], wait: Duration) -> Result<(), Trouble> {
    match fs::metadata(name) {
        Ok(there) if there.is_file() => Held::take(name, wait)?.put(bytes, None),
        Ok(_) => write_straight(name, bytes),
        Err(error) if error.kind() == ErrorKind::NotFound => write_new(name, bytes),
        Err(error) => Err(failed(name, &error)),
    }
}

/// A terminal, a pipe or a device.
fn write_straight(name: &OsStr, bytes: &[u8]) -> Result<(), Trouble> {
    let done = OpenOptions::new().write(true).open(name);
    match done.and_then(|mut file| file.write_all(bytes)) {
        Err(error) if error.kind() == ErrorKind::BrokenPipe => Err(Trouble::Closed),
        done => done.map_err(|error| failed(name, &error)),
    }
}

fn write_new(name: &OsStr, bytes: &[u8]) -> Result<(), Trouble> {
    let fail = |error: io::Error| failed(name, &error);
    let path = Path::new(name);
    let own = path.file_name().filter(|_| !path.is_symlink());
    let own = own.ok_or_else(|| {
        Trouble::System(format!(
            "{}: is no name that a file can get; name a file with -o OUT",
            shown(name)
        ))
    })?;
    let parent = path.parent().filter(|parent| *parent != Path::new(""));
    let folder = fs::canonicalize(parent.unwrap_or(Path::new("."))).map_err(fail)?;
    let mut temporary = Temporary::create(&folder, own, 0o666).map_err(fail)?;
    let what = format!("writing {}", shown(name));
    temporary.write(bytes, &what).map_err(fail)?;
    temporary.sync().map_err(fail)?;
    let _lock = temporary.rename(&folder.join(own)).map_err(fail)?;
    sync_folder(&folder).map_err(|error| not_flushed(name, &error))
}

/// A failure that left what was there as it was.
fn failed(name: &OsStr, error: &io::Error) -> Trouble {
    let what_to_do = match error.kind() {
        ErrorKind::StorageFull | ErrorKind::QuotaExceeded => {
            "make room, or write elsewhere with -o OUT"
        }
        ErrorKind::FileTooLarge => "raise the limit on the size of a file (ulimit -f)",
        ErrorKind::PermissionDenied | ErrorKind::ReadOnlyFilesystem => {
            "get the right to write in its folder, or write elsewhere with -o OUT"
        }
        ErrorKind::NotFound | ErrorKind::NotADirectory => "name a folder that is there",
        _ => "look at the disk, and run this again",
    };
    let (name, because) = (shown(name), because(error));
    Trouble::System(format!(
        "{name}: not written, nothing is changed: {because}; {what_to_do}"
    ))
}

fn not_flushed(name: &OsStr, error: &io::Error) -> Trouble {
    let what = "written, but its folder could not be flushed to the disk";
    Trouble::system(name, what, error)
}
