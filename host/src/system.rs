//! Calls of the system that Rust's library does not have, for saving. Types and numbers are those of 64-bit Linux, for which
//! the library is built.
use std::ffi::{CStr, CString, c_char, c_int, c_void};
use std::fs::File;
use std::io;
use std::os::fd::AsRawFd;

// SAFETY: so the system's headers declare them. The first two take any numbers.
unsafe extern "C" {
    safe fn geteuid() -> u32;
    safe fn posix_fadvise(file: c_int, from: i64, len: i64, advice: c_int) -> c_int;
    fn flistxattr(file: c_int, names: *mut c_char, size: usize) -> isize;
    fn fgetxattr(file: c_int, name: *const c_char, value: *mut c_void, size: usize) -> isize;
    fn fsetxattr(file: c_int, name: *const c_char, value: *const c_void, size: usize, flags: c_int) -> c_int;
    fn fremovexattr(file: c_int, name: *const c_char) -> c_int;
}

/// The user whose rights the process has.
pub fn user() -> u32 {
    geteuid()
}

/// Has the system forget what it holds of a file in memory, if it has flushed it and the file system can: what is read after
/// comes from the disk.
pub fn forget_cached(file: &File) {
    const POSIX_FADV_DONTNEED: c_int = 4;
    posix_fadvise(file.as_raw_fd(), 0, 0, POSIX_FADV_DONTNEED); // advice, and no harm where it is not taken
}

/// The names of a file's extended attributes; none where the file system has none.
pub fn attributes(file: &File) -> io::Result<Vec<CString>> {
    // SAFETY: there is room for so many bytes, and as many as it answers are written.
    let names = filled(|names, room| unsafe { flistxattr(file.as_raw_fd(), names.cast(), room) });
    match names {
        Ok(names) => Ok(names
            .split_inclusive(|byte| *byte == 0)
            .filter_map(|name| CString::from_vec_with_nul(name.to_vec()).ok())
            .collect()),
        Err(error) if error.kind() == io::ErrorKind::Unsupported => Ok(Vec::new()),
        Err(error) => Err(error),
    }
}

pub fn attribute(file: &File, name: &CStr) -> io::Result<Vec<u8>> {
    // SAFETY: the name ends with a zero, there is room for so many bytes, and as many as it answers are written.
    filled(|value, room| unsafe { fgetxattr(file.as_raw_fd(), name.as_ptr(), value.cast(), room) })
}

pub fn set_attribute(file: &File, name: &CStr, value: &[u8]) -> io::Result<()> {
    // SAFETY: the name ends with a zero, and the value has so many bytes.
    done(unsafe { fsetxattr(file.as_raw_fd(), name.as_ptr(), value.as_ptr().cast(), value.len(), 0) })
}

pub fn remove_attribute(file: &File, name: &CStr) -> io::Result<()> {
    // SAFETY: the name ends with a zero.
    done(unsafe { fremovexattr(file.as_raw_fd(), name.as_ptr()) })
}

fn done(answer: c_int) -> io::Result<()> {
    if answer == 0 { Ok(()) } else { Err(io::Error::last_os_error()) }
}

/// What a call writes. No list of names and no value of an attribute is longer than 65,536 bytes.
fn filled(call: impl Fn(*mut u8, usize) -> isize) -> io::Result<Vec<u8>> {
    let mut bytes = vec![0; 1 << 16];
    let len = call(bytes.as_mut_ptr(), bytes.len());
    bytes.truncate(usize::try_from(len).map_err(|_| io::Error::last_os_error())?);
    Ok(bytes)
}
