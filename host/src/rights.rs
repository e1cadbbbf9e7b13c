//! What a new file keeps of the old one that it replaces: who may do what with it.
use std::ffi::CStr;
use std::fs::{File, Metadata, Permissions};
use std::io;
use std::os::unix::fs::{MetadataExt, PermissionsExt, fchown};
use std::path::Path;

use crate::save::{SaveError, While};
use crate::system;

const ACCESS_LIST: &CStr = c"system.posix_acl_access";

/// Gives the new file the old one's owner, group, access list, user's attributes and mode. Owner and group each only where
/// the system lets the caller; nobody but the caller may then do more with the new file than with the old one.
pub fn keep(old: &File, new: &File, path: &Path) -> Result<(), SaveError> {
    let doing = "set the new file's owner and mode";
    let was = old.metadata().doing(doing, path)?;
    keep_owner_and_group(&was, new).doing(doing, path)?;
    let is = new.metadata().doing(doing, path)?;
    keep_access_list(old, new, was.gid() == is.gid()).doing("keep its access list", path)?;
    keep_attributes(old, new).doing("keep its attributes", path)?;
    new.set_permissions(Permissions::from_mode(kept_mode(&was, &is))).doing(doing, path)
}

/// The group first, and by itself: its members may give it, and only root may give a file away.
fn keep_owner_and_group(was: &Metadata, new: &File) -> io::Result<()> {
    let is = new.metadata()?;
    if is.gid() != was.gid() {
        let _ = fchown(new, None, Some(was.gid()));
    }
    if is.uid() != was.uid() {
        let _ = fchown(new, Some(was.uid()), None);
    }
    Ok(())
}

/// A file without a list has none after, though its folder gives one to new files.
fn keep_access_list(old: &File, new: &File, group_kept: bool) -> io::Result<()> {
    let has_list = |file| Ok::<_, io::Error>(system::attributes(file)?.iter().any(|name| **name == *ACCESS_LIST));
    if has_list(old)? {
        if !group_kept {
            // The list's entry for the group would be for another.
            return Err(io::Error::other("its group cannot be kept"));
        }
        system::set_attribute(new, ACCESS_LIST, &system::attribute(old, ACCESS_LIST)?)
    } else if has_list(new)? {
        system::remove_attribute(new, ACCESS_LIST)
    } else {
        Ok(())
    }
}

/// Those that users set. The others are the system's own, which gives the new file its own.
fn keep_attributes(old: &File, new: &File) -> io::Result<()> {
    for name in system::attributes(old)?.iter().filter(|name| name.to_bytes().starts_with(b"user.")) {
        system::set_attribute(new, name, &system::attribute(old, name)?)?;
    }
    Ok(())
}

/// The mode, without what it would hand to others where the owner or the group is another.
fn kept_mode(was: &Metadata, is: &Metadata) -> u32 {
    let mut mode = was.mode() & 0o7777;
    if (was.uid(), was.gid()) != (is.uid(), is.gid()) {
        mode &= !0o6000; // set-user and set-group
    }
    if was.gid() != is.gid() {
        // The new group's members were among all others, and the old one's are now.
        let both = mode >> 3 & mode & 0o7;
        mode = mode & !0o77 | both << 3 | both;
    }
    mode
}
