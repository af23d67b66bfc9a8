//! The functions of the C library that the standard library lacks.

use std::ffi::{c_char, c_int, c_void, CStr};
use std::fs::File;
use std::io;
use std::os::fd::AsRawFd;

extern "C" {
    fn flock(file: c_int, operation: c_int) -> c_int;
    fn signal(number: c_int, handler: usize) -> usize;
    fn flistxattr(file: c_int, list: *mut c_char, size: usize) -> isize;
    fn fgetxattr(file: c_int, name: *const c_char, value: *mut c_void, size: usize) -> isize;
    fn fsetxattr(
        file: c_int,
        name: *const c_char,
        value: *const c_void,
        size: usize,
        flags: c_int,
    ) -> c_int;
}

/// The system's number for a permission that is not given.
pub const EACCES: c_int = 13;
const LOCK_EX: c_int = 2;
const LOCK_NB: c_int = 4;
const SIGXFSZ: c_int = 25;
const SIG_IGN: usize = 1;
/// The most bytes that Linux keeps in an attribute, or in the list of names.
const XATTR_MAX: usize = 65_536;

/// A write beyond the file-size limit then fails, and the temporary file can be removed.
pub fn ignore_file_size_signal() {
    unsafe { signal(SIGXFSZ, SIG_IGN) };
}

/// Locks the file for this open file alone, or says at once that another one has it.
pub fn try_lock(file: &File) -> io::Result<bool> {
    loop {
        if unsafe { flock(file.as_raw_fd(), LOCK_EX | LOCK_NB) } == 0 {
            return Ok(true);
        }
        let error = io::Error::last_os_error();
        match error.kind() {
            io::ErrorKind::WouldBlock => return Ok(false),
            io::ErrorKind::Interrupted => {}
            _ => return Err(error),
        }
    }
}

/// Gives `to` the attributes of `from` that belong to its users: `user.*` and the access control list. What the system
/// does not allow is passed over.
pub fn copy_attributes(from: &File, to: &File) {
    let (from, to) = (from.as_raw_fd(), to.as_raw_fd());
    let mut names = vec![0u8; XATTR_MAX];
    let length = unsafe { flistxattr(from, names.as_mut_ptr().cast(), names.len()) };
    names.truncate(length.max(0) as usize);
    let mut value = vec![0u8; XATTR_MAX];
    for name in names.split_inclusive(|&byte| byte == 0) {
        let Ok(name) = CStr::from_bytes_with_nul(name) else {
            continue;
        };
        let bytes = name.to_bytes();
        if !bytes.starts_with(b"user.") && bytes != b"system.posix_acl_access" {
            continue;
        }
        let length =
            unsafe { fgetxattr(from, name.as_ptr(), value.as_mut_ptr().cast(), value.len()) };
        if let Ok(length) = usize::try_from(length) {
            unsafe { fsetxattr(to, name.as_ptr(), value.as_ptr().cast(), length, 0) };
        }
    }
}
