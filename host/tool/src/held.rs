//! A shot file that is held while a trace is added to it, and a file that is made: what is
//! there is never lost, whatever runs beside this or ends it.

use crate::beside::{clear_leftovers, Beside};
use crate::files::{cannot, read_shot, told_name};
use crate::lock::{lock, Lock};
use crate::stop::{unusable, Answer, Stop};
use std::ffi::OsStr;
use std::fs::{self, File, Metadata, OpenOptions};
use std::io::{self, ErrorKind, Read, Seek, Write};
use std::os::unix::fs::{fchown, MetadataExt};
use std::path::{Path, PathBuf};
use std::time::{Duration, Instant};

/// How long to wait before a lock that another holds is tried again.
const PAUSE: Duration = Duration::from_millis(10);

/// A file that no other addition can touch, with the bytes that it had.
pub struct Held<'a> {
    name: &'a OsStr,
    path: PathBuf,
    file: File,
    seen: Seen,
    pub bytes: Vec<u8>,
}

/// What tells that another program wrote to a file, or put another in its place.
#[derive(PartialEq)]
struct Seen {
    device: u64,
    inode: u64,
    size: u64,
    modified: (i64, i64),
}

impl Seen {
    fn of(about: &Metadata) -> Seen {
        Seen {
            device: about.dev(),
            inode: about.ino(),
            size: about.size(),
            modified: (about.mtime(), about.mtime_nsec()),
        }
    }
}

impl<'a> Held<'a> {
    /// Waits for the file as long as that, and reads it.
    pub fn take(name: &'a OsStr, wait: Duration) -> Answer<Held<'a>> {
        let read = |error: io::Error| cannot(name, "read", &error);
        // the file itself, not a link to it
        let path = fs::canonicalize(name).map_err(read)?;
        may_be_replaced(name, &path)?;
        let file = alone(name, &path, wait, open)?;
        let seen = Seen::of(&file.metadata().map_err(read)?);
        let bytes = read_shot(name, &file)?;
        Ok(Held {
            name,
            path,
            file,
            seen,
            bytes,
        })
    }

    /// Puts a file with other bytes in its place. They are written to a hidden file first,
    /// so a crash leaves the old one.
    pub fn replace(self, bytes: &[u8]) -> Answer<()> {
        let written = |error: io::Error| cannot(self.name, "written", &error);
        let folder = folder_of(&self.path);
        clear_leftovers(folder);
        let mut beside = Beside::new(folder).map_err(written)?;
        self.hand_on(beside.file()).map_err(written)?;
        beside.fill(bytes).map_err(written)?;
        if !self.is_unchanged().map_err(written)? {
            let name = told_name(self.name);
            return Err(unusable(format!(
                "{name} was changed by another program meanwhile: no trace was added; run it again"
            )));
        }
        beside.replace(&self.path).map_err(written)?;
        sync_folder(folder);
        Ok(())
    }

    /// The new file gets the old one's owner, where the system allows it, and its mode:
    /// while it is empty, so that nobody reads what he could not read before.
    fn hand_on(&self, new: &File) -> io::Result<()> {
        let about = self.file.metadata()?;
        let _ = fchown(new, Some(about.uid()), Some(about.gid()));
        new.set_permissions(about.permissions())
    }

    /// Whether the file is still the one that was read. Our own runs wait for the lock;
    /// other programs know nothing of it.
    fn is_unchanged(&self) -> io::Result<bool> {
        let about = match fs::metadata(&self.path) {
            Err(error) if error.kind() == ErrorKind::NotFound => return Ok(false),
            about => about?,
        };
        if Seen::of(&about) != self.seen {
            return Ok(false);
        }
        let mut file = &self.file;
        file.rewind()?;
        let mut again = Vec::with_capacity(self.bytes.len());
        file.take(self.bytes.len() as u64 + 1)
            .read_to_end(&mut again)?;
        Ok(again == self.bytes)
    }
}

/// The file behind a name, locked. After each wait the name may lead to another file,
/// which whoever had the lock has put there.
fn alone(
    name: &OsStr,
    path: &Path,
    wait: Duration,
    open: impl Fn(&Path) -> io::Result<File>,
) -> Answer<File> {
    let began = Instant::now();
    loop {
        let file = open(path).map_err(|error| cannot(name, "written", &error))?;
        match lock(path, &file).map_err(|error| cannot(name, "locked", &error))? {
            Lock::Ours => return Ok(file),
            Lock::Stale => {}
            Lock::Others if began.elapsed() < wait => std::thread::sleep(PAUSE),
            Lock::Others => return Err(still_held(name, wait)),
        }
    }
}

/// For writing as well, so that the system says where it does not allow that.
fn open(path: &Path) -> io::Result<File> {
    OpenOptions::new().read(true).write(true).open(path)
}

fn still_held(name: &OsStr, wait: Duration) -> Stop {
    unusable(format!(
        "{} is held by another addition for {} s: no trace was added; run it again",
        told_name(name),
        wait.as_secs()
    ))
}

/// Refuses what is no file, and what is protected. A file is replaced by renaming, which
/// its own mode would not stop, nor any mode stop the system's administrator.
fn may_be_replaced(name: &OsStr, path: &Path) -> Answer<()> {
    let about = fs::metadata(path).map_err(|error| cannot(name, "read", &error))?;
    let said = told_name(name);
    if about.is_dir() {
        return Err(unusable(format!("{said} is a folder, not a file")));
    }
    if !about.is_file() {
        return Err(unusable(format!("{said} is no plain file")));
    }
    if is_protected(&about) {
        return Err(protected(&said, "chmod u+w allows it"));
    }
    may_be_written_in(name, folder_of(path))
}

fn may_be_written_in(name: &OsStr, folder: &Path) -> Answer<()> {
    let about = fs::metadata(folder).map_err(|error| cannot(name, "written", &error))?;
    if !is_protected(&about) {
        return Ok(());
    }
    let said = format!("the folder of {}", told_name(name));
    Err(protected(&said, "chmod u+w on the folder allows it"))
}

fn protected(what: &str, to_do: &str) -> Stop {
    unusable(format!(
        "{what} is write-protected: nothing was written; {to_do}"
    ))
}

/// Whether nobody at all may write.
fn is_protected(about: &Metadata) -> bool {
    about.mode() & 0o222 == 0
}

fn folder_of(path: &Path) -> &Path {
    let folder = path.parent().unwrap_or(Path::new("/"));
    if folder.as_os_str().is_empty() {
        return Path::new(".");
    }
    folder
}

/// A new name is safe from a power failure once its folder is; not every system can.
fn sync_folder(folder: &Path) {
    let _ = File::open(folder).and_then(|folder| folder.sync_all());
}

/// Makes a file that is not there yet: whole, or not at all. Of two that make it at once,
/// one is told that it is there already.
pub fn create(name: &OsStr, bytes: &[u8]) -> Answer<()> {
    let path = Path::new(name);
    let folder = folder_of(path);
    let written = |error: io::Error| cannot(name, "written", &error);
    may_be_written_in(name, folder)?;
    if fs::symlink_metadata(path).is_ok() {
        return Err(written(ErrorKind::AlreadyExists.into()));
    }
    clear_leftovers(folder);
    let mut beside = Beside::new(folder).map_err(written)?;
    beside.fill(bytes).map_err(written)?;
    let made = match fs::hard_link(beside.path(), path) {
        Err(error) if error.kind() != ErrorKind::AlreadyExists => create_in_place(path, bytes),
        made => made,
    };
    made.map_err(written)?;
    sync_folder(folder);
    Ok(())
}

/// The same where a file cannot have two names, as on a memory card: it is there from the
/// first byte on, but locked, so an addition waits.
fn create_in_place(path: &Path, bytes: &[u8]) -> io::Result<()> {
    let mut new = OpenOptions::new();
    let mut file = new.write(true).create_new(true).open(path)?;
    let written = lock(path, &file)
        .and_then(|_| file.write_all(bytes))
        .and_then(|()| file.sync_all());
    if written.is_err() {
        // what was begun here is no image
        let _ = fs::remove_file(path);
    }
    written
}

#[cfg(test)]
mod tests {
    use super::*;
    use crate::folder_of_tests::Folder;
    use std::thread;

    /// At once, or not at all.
    const NO_WAIT: Duration = Duration::ZERO;

    fn shot(folder: &Folder) -> PathBuf {
        folder.keep("shot", [7; 40])
    }

    fn refused<T>(answer: Answer<T>, says: &str) {
        let Err(stop) = answer else {
            panic!("done, and not refused with: {says}");
        };
        assert!(format!("{stop:?}").contains(says), "{stop:?}");
    }

    #[test]
    fn one_holds_it_at_a_time_and_lets_go_at_its_end() {
        let folder = Folder::new("alone");
        let path = shot(&folder);
        let held = Held::take(path.as_os_str(), NO_WAIT).expect("the file");
        refused(Held::take(path.as_os_str(), NO_WAIT), "is held by another");
        drop(held);
        assert!(Held::take(path.as_os_str(), NO_WAIT).is_ok());
    }

    #[test]
    fn who_waited_gets_the_file_that_stands_there_now() {
        let folder = Folder::new("waited");
        let path = shot(&folder);
        let first = Held::take(path.as_os_str(), NO_WAIT).expect("the file");
        let other = path.clone();
        let waiting = thread::spawn(move || {
            let held = Held::take(other.as_os_str(), Duration::from_secs(60));
            held.map(|held| held.bytes).expect("the new file")
        });
        thread::sleep(5 * PAUSE);
        first.replace(b"another").expect("replaced");
        assert_eq!(waiting.join().expect("a thread"), b"another");
        assert_eq!(folder.names(), ["shot"]);
    }

    #[test]
    fn a_file_that_is_replaced_between_opening_and_locking_is_let_go() {
        let folder = Folder::new("between");
        let path = shot(&folder);
        let replaced = std::cell::Cell::new(0);
        let opened = alone(path.as_os_str(), &path, NO_WAIT, |path| {
            let file = open(path);
            // twice another run is quicker
            if replaced.replace(replaced.get() + 1) < 2 {
                folder.keep("new", [replaced.get(); 40]);
                fs::rename(folder.path("new"), path).expect("another file");
            }
            file
        });
        let mut bytes = Vec::new();
        let mut file = opened.expect("the file");
        file.read_to_end(&mut bytes).expect("its bytes");
        assert_eq!((replaced.get(), bytes), (3, vec![2; 40]));
    }

    #[test]
    fn a_file_that_others_changed_is_not_replaced() {
        type Change = fn(&Path);
        let changes: [Change; 4] = [
            |path| fs::write(path, [8; 41]).expect("longer"),
            // the same size: the time or the bytes tell
            |path| fs::write(path, [8; 40]).expect("other bytes"),
            |path| {
                fs::write(path.with_file_name("new"), [7; 40]).expect("a file");
                fs::rename(path.with_file_name("new"), path).expect("another file");
            },
            |path| fs::remove_file(path).expect("no file"),
        ];
        for change in changes {
            let folder = Folder::new("changed");
            let path = shot(&folder);
            let held = Held::take(path.as_os_str(), NO_WAIT).expect("the file");
            change(&path);
            let there = fs::read(&path).ok();
            refused(held.replace(b"lost"), "was changed by another program");
            assert_eq!(fs::read(&path).ok(), there);
            assert_eq!(folder.names().len(), usize::from(there.is_some()));
        }
    }

    #[test]
    fn bytes_that_changed_under_the_same_time_are_seen() {
        let folder = Folder::new("same-time");
        let path = shot(&folder);
        let held = Held::take(path.as_os_str(), NO_WAIT).expect("the file");
        let time = fs::metadata(&path).and_then(|about| about.modified());
        fs::write(&path, [8; 40]).expect("other bytes");
        let file = File::options().write(true).open(&path).expect("the file");
        file.set_modified(time.expect("a time")).expect("set back");
        refused(held.replace(b"lost"), "was changed by another program");
    }

    #[test]
    fn a_file_is_made_once_also_in_place() {
        let folder = Folder::new("made");
        let path = folder.path("shot");
        create_in_place(&path, b"one").expect("made");
        let again = create_in_place(&path, b"two").expect_err("there already");
        assert_eq!(again.kind(), ErrorKind::AlreadyExists);
        refused(create(path.as_os_str(), b"three"), "it is there already");
        assert_eq!(fs::read(&path).expect("the file"), b"one");
        assert_eq!(folder.names(), ["shot"]);
    }

    #[test]
    fn the_folder_of_a_bare_name_is_here() {
        let folders = ["shot", "a/shot", "/shot", "/"].map(|path| folder_of(Path::new(path)));
        assert_eq!(folders, [".", "a", "/", "/"].map(Path::new));
    }
}
