//! The hidden file that is written whole before it takes a shot file's place.

use crate::lock::{lock, still_named, Lock};
use std::fs::{self, File, OpenOptions};
use std::io::{self, ErrorKind, Write};
use std::os::unix::ffi::OsStrExt;
use std::path::{Path, PathBuf};

/// A hidden file in the folder of the file that it will be. It is locked as long as it is
/// in use, and goes away with this value.
pub struct Beside {
    path: PathBuf,
    file: File,
}

impl Beside {
    /// A new one, still empty.
    pub fn new(folder: &Path) -> io::Result<Beside> {
        for attempt in 0..1000 {
            let path = folder.join(format!(".seg2-{}-{attempt}.new", std::process::id()));
            let mut new = OpenOptions::new();
            let file = match new.read(true).write(true).create_new(true).open(&path) {
                // another machine on this folder, or a leftover that is not ours to clear
                Err(error) if error.kind() == ErrorKind::AlreadyExists => continue,
                other => other?,
            };
            // before the lock another run may take it for a leftover, and clear it
            match lock(&path, &file) {
                Ok(Lock::Ours) => return Ok(Beside { path, file }),
                Ok(Lock::Others | Lock::Stale) => {}
                Err(error) => {
                    let _ = fs::remove_file(&path);
                    return Err(error);
                }
            }
        }
        Err(io::Error::other("no free name for a hidden file"))
    }

    /// Writes these bytes, so that they are there after a power failure too.
    pub fn fill(&mut self, bytes: &[u8]) -> io::Result<()> {
        self.file.write_all(bytes)?;
        self.file.sync_all()
    }

    pub fn path(&self) -> &Path {
        &self.path
    }

    pub fn file(&self) -> &File {
        &self.file
    }

    /// Takes the place of another file, which is gone then.
    pub fn replace(&self, other: &Path) -> io::Result<()> {
        fs::rename(&self.path, other)
    }
}

impl Drop for Beside {
    fn drop(&mut self) {
        // after `replace` the name is free already; whoever took it since keeps it
        if matches!(still_named(&self.path, &self.file), Ok(true)) {
            let _ = fs::remove_file(&self.path);
        }
    }
}

/// Whether a file's name is one of those that are given here.
pub fn is_ours(path: &Path) -> bool {
    let name = path.file_name().map_or(&b""[..], OsStrExt::as_bytes);
    let numbers = name
        .strip_prefix(b".seg2-")
        .and_then(|rest| rest.strip_suffix(b".new"));
    let mut parts = numbers.unwrap_or(b"").split(|&c| c == b'-');
    let digits = |part: Option<&[u8]>| {
        part.is_some_and(|part| !part.is_empty() && part.iter().all(u8::is_ascii_digit))
    };
    digits(parts.next()) && digits(parts.next()) && parts.next().is_none()
}

/// Clears what killed runs left in a folder: files of our name that nobody has locked. What
/// cannot be cleared stays, which does no harm.
pub fn clear_leftovers(folder: &Path) {
    let entries = fs::read_dir(folder).into_iter().flatten().flatten();
    for path in entries
        .map(|entry| entry.path())
        .filter(|path| is_ours(path))
    {
        let _ = clear(&path);
    }
}

fn clear(path: &Path) -> io::Result<()> {
    if !fs::symlink_metadata(path)?.is_file() {
        return Ok(());
    }
    let file = OpenOptions::new().read(true).write(true).open(path)?;
    // who holds the lock of a file is the only one that moves or removes it
    match lock(path, &file)? {
        Lock::Ours => fs::remove_file(path),
        Lock::Others | Lock::Stale => Ok(()),
    }
}

#[cfg(test)]
mod tests {
    use super::*;
    use crate::folder_of_tests::Folder;

    #[test]
    fn our_names_are_known() {
        for name in [".seg2-1-0.new", "/shots/.seg2-4194304-999.new"] {
            assert!(is_ours(Path::new(name)), "{name}");
        }
        for name in [
            ".seg2-1.new",
            ".seg2--1.new",
            ".seg2-1-.new",
            ".seg2-1-2-3.new",
            ".seg2-a-1.new",
            "seg2-1-0.new",
            ".seg2-1-0.new2",
            ".seg2-1-0.new/shot",
            "/",
        ] {
            assert!(!is_ours(Path::new(name)), "{name}");
        }
    }

    #[test]
    fn leftovers_are_cleared_and_what_is_in_use_stays() {
        let folder = Folder::new("leftovers");
        for name in [".seg2-1-0.new", ".seg2-2-7.new", ".seg2-notes.new", "shot"] {
            folder.keep(name, "");
        }
        fs::create_dir(folder.path(".seg2-3-0.new")).expect("a folder");
        let used = Beside::new(&folder.0).expect("a file beside");
        let name = used.path().file_name().expect("a name");
        let name = name.to_string_lossy().into_owned();
        clear_leftovers(&folder.0);
        let mut left = vec![
            name,
            ".seg2-3-0.new".into(),
            ".seg2-notes.new".into(),
            "shot".into(),
        ];
        left.sort();
        assert_eq!(folder.names(), left);
        drop(used);
        assert_eq!(folder.names(), [".seg2-3-0.new", ".seg2-notes.new", "shot"]);
    }

    #[test]
    fn a_name_that_is_taken_is_passed_over() {
        let folder = Folder::new("taken");
        let mut first = Beside::new(&folder.0).expect("a file beside");
        let second = Beside::new(&folder.0).expect("another");
        first.fill(b"1").expect("written");
        assert_ne!(first.path(), second.path());
        first.replace(&folder.path("shot")).expect("the place");
        drop(first);
        assert_eq!(fs::read(folder.path("shot")).expect("the file"), b"1");
        assert_eq!(folder.names().len(), 2);
    }
}
