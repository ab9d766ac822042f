//! The system's own locks on open files: one ends with the process that holds it, however
//! that process ends, so a killed run leaves none behind.

use std::fs::{self, File};
use std::io::{self, ErrorKind};
use std::os::fd::AsRawFd;
use std::os::unix::fs::MetadataExt;
use std::path::Path;

extern "C" {
    fn flock(descriptor: i32, operation: i32) -> i32;
}

/// `LOCK_EX | LOCK_NB`: for one holder alone, without waiting.
const ALONE_AT_ONCE: i32 = 2 | 4;

/// What comes of locking the file behind a name.
#[derive(Debug, PartialEq)]
pub enum Lock {
    /// It is ours until the file is closed.
    Ours,
    /// Somebody else has it.
    Others,
    /// It is ours, but the name leads to another file by now, or to none: whoever had the
    /// lock before has replaced or removed this one.
    Stale,
}

/// Locks an open file that was found under this name, without waiting.
pub fn lock(path: &Path, file: &File) -> io::Result<Lock> {
    Ok(match (locked(file)?, still_named(path, file)?) {
        (false, _) => Lock::Others,
        (true, true) => Lock::Ours,
        (true, false) => Lock::Stale,
    })
}

#[allow(unsafe_code)]
fn locked(file: &File) -> io::Result<bool> {
    // SAFETY: two numbers and no memory; the descriptor is open while `file` is borrowed
    if unsafe { flock(file.as_raw_fd(), ALONE_AT_ONCE) } == 0 {
        return Ok(true);
    }
    match io::Error::last_os_error() {
        error if error.kind() == ErrorKind::WouldBlock => Ok(false),
        error => Err(error),
    }
}

/// Whether a name leads to this open file.
pub fn still_named(path: &Path, file: &File) -> io::Result<bool> {
    let named = match fs::symlink_metadata(path) {
        Err(error) if error.kind() == ErrorKind::NotFound => return Ok(false),
        other => other?,
    };
    let open = file.metadata()?;
    Ok((named.dev(), named.ino()) == (open.dev(), open.ino()))
}

#[cfg(test)]
mod tests {
    use super::*;
    use crate::folder_of_tests::Folder;

    #[test]
    fn a_lock_is_ours_or_anothers_or_of_a_file_that_is_gone() {
        let folder = Folder::new("lock");
        let path = folder.path("shot");
        let open = || {
            File::options()
                .write(true)
                .create(true)
                .truncate(false)
                .open(&path)
        };
        let (one, two) = (open().expect("the file"), open().expect("the file"));
        let of = |file: &File| lock(&path, file).expect("an answer");
        assert_eq!((of(&one), of(&two)), (Lock::Ours, Lock::Others));
        drop(one);
        assert_eq!(of(&two), Lock::Ours);
        // who opened the file before it was replaced
        folder.keep("new", "");
        fs::rename(folder.path("new"), &path).expect("in its place");
        assert_eq!(of(&two), Lock::Stale);
        let three = open().expect("the new one");
        assert_eq!(of(&three), Lock::Ours);
        fs::remove_file(&path).expect("gone");
        assert_eq!(of(&three), Lock::Stale);
    }
}
