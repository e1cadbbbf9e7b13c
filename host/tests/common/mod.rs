//! Takes written without the library, and folders to work in.
#![allow(dead_code)] // each test uses some of it

pub mod records;

use std::fs;
use std::path::{Path, PathBuf};
use std::process::{Command, Output};
use std::sync::atomic::{AtomicU32, Ordering};

use vmd::{Error, Manner, PartsMut};

/// The manners of reading a whole take.
pub const BOTH: [Manner; 2] = [Manner::Strict, Manner::Lenient];

/// The magic and a zero model name: 50 bytes.
pub fn start() -> Vec<u8> {
    let mut file = b"Vocaloid Motion Data 0002".to_vec();
    file.resize(50, 0);
    file
}

/// The same of the older edition: 40 bytes.
pub fn older_start() -> Vec<u8> {
    let mut file = b"Vocaloid Motion Data file".to_vec();
    file.resize(40, 0);
    file
}

/// A file of the newer edition with the header of the older one, which has room for 10 bytes of its model name.
pub fn as_older(newer: &[u8]) -> Vec<u8> {
    [&older_start()[..30], &newer[30..40], &newer[50..]].concat()
}

/// A file of the older edition with the header of the newer one: what it must read as.
pub fn widened(older: &[u8]) -> Vec<u8> {
    [&start()[..30], &older[30..40], &[0; 10], &older[40..]].concat()
}

/// The start, and these counts.
pub fn counts(counts: &[u32]) -> Vec<u8> {
    let mut file = start();
    counts.iter().for_each(|count| file.extend(count.to_le_bytes()));
    file
}

/// A canonical take of so many bones, whose bytes depend on the seed.
pub fn bones(n: u32, seed: u32) -> Vec<u8> {
    let mut file = counts(&[n]);
    for i in 0..n {
        file.extend(b"center\0\0\0\0\0\0\0\0\0");
        file.extend(i.to_le_bytes());
        file.extend((0..23u32).flat_map(|k| (i ^ seed.wrapping_mul(2654435761).wrapping_add(k)).to_le_bytes()));
    }
    file.resize(file.len() + 20, 0);
    file
}

/// A take with a record at each of these frames, section by section. Its other fields are zeros.
pub fn at_frames(frames: [Vec<u32>; 6]) -> Vec<u8> {
    let mut file = start();
    for (frames, (size, at)) in frames.iter().zip([(111, 15), (23, 15), (61, 0), (28, 0), (9, 0), (9, 0)]) {
        file.extend((frames.len() as u32).to_le_bytes());
        for frame in frames {
            let record = file.len();
            file.resize(record + size, 0);
            file[record + at..][..4].copy_from_slice(&frame.to_le_bytes());
        }
    }
    file
}

/// The takes of the repository's folder `examples`.
pub fn examples() -> Vec<Vec<u8>> {
    let folder = Path::new(env!("CARGO_MANIFEST_DIR")).join("../examples");
    let files: Vec<_> = fs::read_dir(folder).unwrap().map(|entry| fs::read(entry.unwrap().path()).unwrap()).collect();
    assert!(files.len() > 1);
    files
}

/// The first place at which two files differ or just one of them has ended; None where they are equal.
pub fn first_difference(one: &[u8], other: &[u8]) -> Option<usize> {
    (0..one.len().max(other.len())).find(|&place| one.get(place) != other.get(place))
}

/// The number of a refusal; 0 where there is none.
pub fn number<T, E: Into<Error>>(answer: Result<T, E>) -> u32 {
    match answer.err().map(Into::into) {
        None => 0,
        Some(Error::Refused(refusal)) => refusal.number(),
        Some(error) => panic!("{error}"),
    }
}

/// What every call that reads a whole take answers in a manner for a file that is refused, whether it is lent nothing or plenty,
/// which stays as it was.
pub fn refused_by_all(manner: Manner, file: &[u8]) -> u32 {
    let good = counts(&[0; 6]);
    let mut numbers = vec![
        number(manner.open(file)),
        number(manner.export(file)),
        number(manner.export_size(file)),
        number(manner.export_older(file)),
        number(manner.export_older_size(file)),
        number(manner.join(file, &good)),
        number(manner.join(&good, file)),
        number(manner.join_size(file, &good)),
        number(manner.join_size(&good, file)),
        number(manner.tidy(file)),
        number(manner.excerpt(file, 3, 30)),
        number(manner.excerpt_size(file, 3, 30)),
        number(manner.is_canonical(file)),
        number(manner.first_change(file)),
        number(manner.split_sizes(file)),
        number(manner.split_into(file, PartsMut::default())),
    ];
    for room in [0, file.len() + 100] {
        let (mut out, mut scratch) = (vec![0xA5; room], vec![7; room]);
        numbers.extend([
            number(manner.export_into(file, &mut out)),
            number(manner.export_older_into(file, &mut out)),
            number(manner.join_into(file, &good, &mut out)),
            number(manner.join_into(&good, file, &mut out)),
            number(manner.tidy_size(file, &mut scratch)),
            number(manner.tidy_into(file, &mut scratch, &mut out)),
            number(manner.excerpt_into(file, 3, 30, &mut out)),
        ]);
        assert!(out == vec![0xA5; room] && scratch == vec![7; room], "a refused call has written");
    }
    assert!(numbers[0] != 0 && numbers.iter().all(|number| *number == numbers[0]), "{numbers:?}");
    numbers[0]
}

/// Numbers that follow from a seed.
pub struct Random(u32);

impl Random {
    /// Of a seed that is not 0.
    pub fn new(seed: u32) -> Random {
        Random(seed.wrapping_mul(0x9E37_79B9))
    }

    pub fn next(&mut self) -> u32 {
        self.0 ^= self.0 << 13;
        self.0 ^= self.0 >> 17;
        self.0 ^= self.0 << 5;
        self.0
    }

    pub fn below(&mut self, limit: u32) -> usize {
        (self.next() % limit) as usize
    }
}

/// A folder of the test's own, removed with all in it when it goes out of scope.
pub struct Folder(pub PathBuf);

impl Folder {
    pub fn new(name: &str) -> Folder {
        static NUMBER: AtomicU32 = AtomicU32::new(0);
        let number = NUMBER.fetch_add(1, Ordering::Relaxed);
        let path = Path::new(env!("CARGO_TARGET_TMPDIR")).join(format!("{name}-{}-{number}", std::process::id()));
        fs::create_dir(&path).unwrap();
        Folder(path)
    }

    pub fn join(&self, name: &str) -> PathBuf {
        self.0.join(name)
    }

    /// The path of a file with these bytes.
    pub fn file(&self, name: &str, bytes: &[u8]) -> PathBuf {
        let path = self.join(name);
        fs::write(&path, bytes).unwrap();
        path
    }

    /// The names of all that is there, in order.
    pub fn names(&self) -> Vec<String> {
        let mut names: Vec<_> =
            fs::read_dir(&self.0).unwrap().map(|entry| entry.unwrap().file_name().into_string().unwrap()).collect();
        names.sort();
        names
    }
}

impl Drop for Folder {
    fn drop(&mut self) {
        let _ = fs::remove_dir_all(&self.0);
    }
}

/// The command `vmd`.
pub fn vmd() -> Command {
    Command::new(env!("CARGO_BIN_EXE_vmd"))
}

/// The command under a shell's settings, as `ulimit -f 1`.
pub fn vmd_under(settings: &str) -> Command {
    vmd_with(&format!("{settings}; exec"))
}

/// The command after some words of a shell, as `cat take |`.
pub fn vmd_with(words: &str) -> Command {
    let mut shell = Command::new("sh");
    shell.args(["-c", &format!("{words} \"$@\""), "sh", env!("CARGO_BIN_EXE_vmd")]);
    shell
}

pub fn status(output: &Output) -> i32 {
    output.status.code().unwrap_or_else(|| panic!("ended by a signal: {output:?}"))
}

pub fn out(output: &Output) -> String {
    String::from_utf8(output.stdout.clone()).unwrap()
}

pub fn err(output: &Output) -> String {
    String::from_utf8(output.stderr.clone()).unwrap()
}

/// Extended attributes of files, by the system's calls.
pub mod attributes {
    use std::ffi::{CString, c_char, c_int, c_void};
    use std::io;
    use std::os::unix::ffi::OsStrExt;
    use std::path::Path;

    unsafe extern "C" {
        fn setxattr(path: *const c_char, name: *const c_char, value: *const c_void, size: usize, flags: c_int) -> c_int;
        fn getxattr(path: *const c_char, name: *const c_char, value: *mut c_void, size: usize) -> isize;
    }

    fn c_strings(path: &Path, name: &str) -> (CString, CString) {
        (CString::new(path.as_os_str().as_bytes()).unwrap(), CString::new(name).unwrap())
    }

    pub fn set(path: &Path, name: &str, value: &[u8]) -> io::Result<()> {
        let (path, name) = c_strings(path, name);
        // SAFETY: both strings end with a zero, and the value has so many bytes.
        match unsafe { setxattr(path.as_ptr(), name.as_ptr(), value.as_ptr().cast(), value.len(), 0) } {
            0 => Ok(()),
            _ => Err(io::Error::last_os_error()),
        }
    }

    /// None where the file has none of that name.
    pub fn get(path: &Path, name: &str) -> Option<Vec<u8>> {
        let (path, name) = c_strings(path, name);
        let mut value = vec![0; 1 << 16];
        // SAFETY: both strings end with a zero, and the value has room for so many bytes.
        let len = unsafe { getxattr(path.as_ptr(), name.as_ptr(), value.as_mut_ptr().cast(), value.len()) };
        value.truncate(usize::try_from(len).ok()?);
        Some(value)
    }
}
