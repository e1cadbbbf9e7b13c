//! Saving a file in the place of another.
use std::ffi::OsStr;
use std::fs::{self, File, Metadata, OpenOptions, TryLockError};
use std::io::{self, ErrorKind, Read, Seek, Write};
use std::os::unix::fs::{MetadataExt, OpenOptionsExt};
use std::path::{Path, PathBuf};
use std::{error, fmt};

use crate::rights;
use crate::shown::shown;
use crate::system;

/// What could not be done, with which file, and why.
#[derive(Debug)]
pub struct SaveError {
    doing: &'static str,
    path: PathBuf,
    cause: io::Error,
    replaced: bool,
}

impl SaveError {
    /// Whether the target is the new file, whole, and only its folder could not be flushed: where the machine stops before
    /// the system has done that by itself, the old file may be back. After any other error the target is as it was.
    pub fn replaced(&self) -> bool {
        self.replaced
    }
}

impl fmt::Display for SaveError {
    fn fmt(&self, f: &mut fmt::Formatter<'_>) -> fmt::Result {
        write!(f, "{}: cannot {}: {}", shown(&self.path), self.doing, self.cause)
    }
}

impl error::Error for SaveError {
    fn source(&self) -> Option<&(dyn error::Error + 'static)> {
        Some(&self.cause)
    }
}

/// Names what was being done, for an error that has only the system's word.
pub trait While<T> {
    fn doing(self, doing: &'static str, path: &Path) -> Result<T, SaveError>;
}

impl<T> While<T> for io::Result<T> {
    fn doing(self, doing: &'static str, path: &Path) -> Result<T, SaveError> {
        self.map_err(|cause| SaveError { doing, path: path.to_owned(), cause, replaced: false })
    }
}

/// Which file it is, whatever names it has.
#[derive(Clone, Copy, Debug, PartialEq, Eq)]
pub struct FileId {
    device: u64,
    number: u64,
}

impl FileId {
    /// Of the file that has this metadata.
    pub fn of(found: &Metadata) -> Self {
        FileId { device: found.dev(), number: found.ino() }
    }
}

/// Puts these bytes in the place of the file, whole or not at all.
///
/// They are written to a new file in the target's folder, flushed to the disk, read back and compared; only then does the
/// new file take the target's name, in one step, and the folder is flushed. Where anything fails the target is as it was;
/// where the process is ended, at any point, it is the old file or the new one. Where the flush of the folder fails, the new
/// file has the name already; that is the one error after which the target is the new file ([`SaveError::replaced`]).
///
/// Before the new file is read back the system is told to forget what it holds of it in memory, so that the bytes come from
/// the disk. They may still come from the disk's own memory; and where the file system is in memory, or on another machine,
/// from there.
///
/// The target keeps its mode, its access list (POSIX) and the attributes that users set (`user.`), and its owner and group,
/// each where the system lets the caller set it. Where the group cannot be kept, the group and all others are left with what
/// both were allowed, and a target with an access list is not replaced; set-user and set-group bits stay with their owner and
/// group only. Other attributes, as labels, are those of a new file.
///
/// A target that is read-only is not replaced, by root neither, nor one that the caller may not write to. A symbolic link is
/// followed: the file that it leads to is replaced, and the link stays; one of another's in a folder where all may make
/// links (a sticky one) is not followed. Other hard links to the old file keep its old contents.
///
/// The new file is named `.vmd-save-0.tmp`, or with the next number that is free; it is locked while it is written. One that
/// is not locked was left by a process that was ended. It stays there, since the caller may have read it:
/// [`save_and_clear`] removes it.
pub fn save(path: impl AsRef<Path>, bytes: &[u8]) -> Result<(), SaveError> {
    replace(path.as_ref(), bytes).map(drop)
}

/// Saves as [`save`] does, and once that is done removes what saves that were ended have left in the target's folder: files
/// named `.vmd-save-N.tmp` that are not locked. Neither the target is removed nor a file that the caller says it has read.
pub fn save_and_clear(path: impl AsRef<Path>, bytes: &[u8], read: &[FileId]) -> Result<(), SaveError> {
    let saved = replace(path.as_ref(), bytes)?;
    clear(folder_of(&saved.path), read); // the file that was saved is locked still
    Ok(())
}

fn replace(path: &Path, bytes: &[u8]) -> Result<NewFile, SaveError> {
    let target = linked_to(path)?;
    let old = replaceable(path, &target)?;
    let folder = folder_of(&target);
    // Opened first: a folder that cannot be flushed is found while nothing has changed yet.
    let flushed = File::open(folder).doing("open the folder", folder)?;
    let mut new = NewFile::create(&target, old.is_some())?;
    new.file.write_all(bytes).map_err(|error| with_what_is_left(error, folder)).doing("write the new file", path)?;
    if let Some(old) = &old {
        rights::keep(old, &new.file, path)?;
    }
    new.file.sync_all().map_err(|error| with_what_is_left(error, folder)).doing("flush the new file", path)?;
    system::forget_cached(&new.file);
    compare(&mut new.file, bytes).doing("read the new file back", path)?;
    new.take_name(&target).doing("replace the file", path)?;
    match flushed.sync_all() {
        // a file system that does not know of flushing folders
        Err(error) if matches!(error.kind(), ErrorKind::InvalidInput | ErrorKind::Unsupported) => {}
        done => done
            .doing("flush its folder, and it is the new file already", path)
            .map_err(|error| SaveError { replaced: true, ..error })?,
    }
    Ok(new)
}

fn folder_of(target: &Path) -> &Path {
    match target.parent() {
        Some(parent) if parent != Path::new("") => parent,
        _ => Path::new("."),
    }
}

/// The file that a path leads to, through symbolic links; it need not be there.
fn linked_to(path: &Path) -> Result<PathBuf, SaveError> {
    let mut target = path.to_owned();
    for _ in 0..40 {
        // no link, or no such file
        let Ok(link) = fs::read_link(&target) else { return Ok(target) };
        // What is open there may be a log that is appended to, and is nobody's take.
        if fs::canonicalize(folder_of(&target)).is_ok_and(|folder| folder.starts_with("/proc")) {
            return Err(io::Error::other("it is a descriptor; '-' is standard output")).doing("replace the file", path);
        }
        may_follow(&target).doing("follow the link", &target)?;
        target = target.parent().unwrap_or(Path::new("")).join(link);
    }
    Err(io::Error::other("too many symbolic links")).doing("find the file", path)
}

/// In a sticky folder, where all may make files and nobody may remove another's, Linux can be set to follow only the caller's
/// own links and the folder's owner's (protected_symlinks). Here links are read and not followed by the system, so that rule
/// is kept here, whatever the system is set to.
fn may_follow(link: &Path) -> io::Result<()> {
    let folder = fs::metadata(folder_of(link))?;
    let owner = fs::symlink_metadata(link)?.uid();
    if folder.mode() & 0o1002 == 0o1002 && owner != system::user() && owner != folder.uid() {
        return Err(io::Error::other("it is another's, in a folder where all may make links"));
    }
    Ok(())
}

/// The old file where there is one, if it may be replaced. A rename asks only for permission on the folder: whether the file
/// itself may be written to is found by its mode, which root heeds too, and by opening it.
fn replaceable(path: &Path, target: &Path) -> Result<Option<File>, SaveError> {
    let refused = |doing, cause| Err(io::Error::other(cause)).doing(doing, path);
    let found = match fs::metadata(path) {
        Err(error) if error.kind() == ErrorKind::NotFound => return Ok(None),
        found => found.doing("find the file", path)?,
    };
    if found.is_dir() {
        return refused("replace the file", "it is a folder");
    }
    if !found.is_file() {
        return refused("replace the file", "it is no regular file");
    }
    if found.permissions().readonly() {
        return refused("write to the file", "it is read-only");
    }
    let old = OpenOptions::new().write(true).open(target).doing("write to the file", path)?;
    if target.file_name().is_some_and(is_new_name) && matches!(old.try_lock(), Err(TryLockError::WouldBlock)) {
        return refused("replace the file", "another save is writing it");
    }
    Ok(Some(old))
}

fn compare(file: &mut File, bytes: &[u8]) -> io::Result<()> {
    let differs = || io::Error::other("it is not what was written");
    let mut piece = vec![0; 1 << 16];
    let mut left = bytes;
    file.rewind()?;
    loop {
        let n = file.read(&mut piece)?;
        if n == 0 {
            return if left.is_empty() { Ok(()) } else { Err(differs()) };
        }
        left = left.strip_prefix(&piece[..n]).ok_or_else(differs)?;
    }
}

const NEW_NAME: (&str, &str) = (".vmd-save-", ".tmp");

/// The names that new files may have beside the target: not its own.
fn new_names(target: &Path) -> impl Iterator<Item = PathBuf> {
    let (begin, end) = NEW_NAME;
    (0..10_000).map(move |number| target.with_file_name(format!("{begin}{number}{end}"))).filter(move |path| path != target)
}

fn is_new_name(name: &OsStr) -> bool {
    let (begin, end) = NEW_NAME;
    let number = name.to_str().and_then(|name| name.strip_prefix(begin)?.strip_suffix(end));
    number.is_some_and(|number| !number.is_empty() && number.bytes().all(|digit| digit.is_ascii_digit()))
}

/// A file beside the target. While it is ours it is removed where it does not take the target's name. It is locked.
struct NewFile {
    path: PathBuf,
    file: File,
    ours: bool,
}

impl NewFile {
    /// Private until it has the old file's mode, where there is an old file.
    fn create(target: &Path, private: bool) -> Result<NewFile, SaveError> {
        let mode = if private { 0o600 } else { 0o666 };
        let doing = "make a new file in the folder";
        for path in new_names(target) {
            match OpenOptions::new().read(true).write(true).create_new(true).mode(mode).open(&path) {
                Ok(file) => {
                    let mut new = NewFile { path, file, ours: false };
                    new.ours = new.lock();
                    if new.ours {
                        return Ok(new);
                    }
                }
                Err(error) if error.kind() == ErrorKind::AlreadyExists => {}
                Err(error) => return Err(with_what_is_left(error, folder_of(target))).doing(doing, folder_of(target)),
            }
        }
        Err(io::Error::other("too many files .vmd-save-N.tmp are there")).doing(doing, folder_of(target))
    }

    /// Before it was locked, another save may have taken it for one that was left, and removed it. Where the file system has
    /// no locks, none is removed so.
    fn lock(&self) -> bool {
        !matches!(self.file.try_lock(), Err(TryLockError::WouldBlock)) && is_named(&self.file, &self.path)
    }

    fn take_name(&mut self, target: &Path) -> io::Result<()> {
        // Removed by hand, or by a save on another machine that does not see the lock: the name may be another's by now.
        if !is_named(&self.file, &self.path) {
            return Err(io::Error::other("the new file was removed by another program"));
        }
        fs::rename(&self.path, target)?;
        self.ours = false;
        self.path = target.to_owned();
        Ok(())
    }
}

impl Drop for NewFile {
    fn drop(&mut self) {
        if self.ours && is_named(&self.file, &self.path) {
            let _ = fs::remove_file(&self.path);
        }
    }
}

/// Removes the new files of saves that were ended, but for those that were read. What cannot be removed stays.
fn clear(folder: &Path, read: &[FileId]) {
    each_left(folder, read, |path, _| {
        let _ = fs::remove_file(path);
    });
}

/// The new files of saves that were ended, those whose lock can be had, but for these. Each is locked while it is looked at.
fn each_left(folder: &Path, but: &[FileId], mut look: impl FnMut(&Path, &Metadata)) {
    let Ok(entries) = fs::read_dir(folder) else { return };
    for path in entries.flatten().filter(|entry| is_new_name(&entry.file_name())).map(|entry| entry.path()) {
        if let Ok(found) = fs::symlink_metadata(&path)
            && found.is_file()
            && !but.contains(&FileId::of(&found))
            && let Ok(file) = File::open(&path)
            && file.try_lock().is_ok()
            && is_named(&file, &path)
        {
            look(&path, &found);
        }
    }
}

/// Where there is no room, what saves that were ended have left may be why: only one that is done removes it.
fn with_what_is_left(error: io::Error, folder: &Path) -> io::Error {
    if !matches!(error.kind(), ErrorKind::StorageFull | ErrorKind::QuotaExceeded) {
        return error;
    }
    let mut bytes = None;
    each_left(folder, &[], |_, found| bytes = Some(bytes.unwrap_or(0) + found.len()));
    let Some(bytes) = bytes else { return error };
    let left = format!("files .vmd-save-N.tmp that killed saves left there take {bytes} bytes and may be removed");
    io::Error::new(error.kind(), format!("{error}; {left}"))
}

fn is_named(file: &File, path: &Path) -> bool {
    match (file.metadata(), fs::symlink_metadata(path)) {
        (Ok(open), Ok(named)) => FileId::of(&open) == FileId::of(&named),
        _ => false,
    }
}

#[cfg(test)]
mod tests {
    use super::*;

    /// A folder of its own, removed at the end.
    struct Folder(PathBuf);

    impl Folder {
        fn new(name: &str) -> Folder {
            let path = std::env::temp_dir().join(format!("vmd-save-{name}-{}", std::process::id()));
            fs::create_dir(&path).unwrap();
            Folder(path)
        }
    }

    impl Drop for Folder {
        fn drop(&mut self) {
            let _ = fs::remove_dir_all(&self.0);
        }
    }

    #[test]
    fn a_new_file_whose_name_is_anothers_by_now() {
        let folder = Folder::new("name");
        let target = folder.0.join("take");
        fs::write(&target, b"old").unwrap();
        let mut new = NewFile::create(&target, true).unwrap();
        new.file.write_all(b"new").unwrap();
        fs::remove_file(&new.path).unwrap();
        fs::write(&new.path, b"another's").unwrap();
        new.take_name(&target).unwrap_err();
        let path = new.path.clone();
        drop(new);
        assert_eq!((fs::read(&target).unwrap(), fs::read(&path).unwrap()), (b"old".to_vec(), b"another's".to_vec()));
    }

    #[test]
    fn a_target_that_another_save_is_writing() {
        let folder = Folder::new("written");
        let other = NewFile::create(&folder.0.join("take"), true).unwrap();
        save(&other.path, b"take").unwrap_err();
        assert!(is_named(&other.file, &other.path) && fs::read(&other.path).unwrap().is_empty());
    }
}
