//! Folders: the files in them.

use crate::beside::is_ours;
use crate::files::{cannot, told_name};
use crate::stop::{unusable, Answer};
use std::ffi::{OsStr, OsString};
use std::fs;
use std::path::{Path, PathBuf};

/// Files, and the names that cannot be looked at, each with why.
pub type Found = Vec<(OsString, Answer<()>)>;

/// The names as they are given, a folder's replaced by those of the files in it.
pub fn files(names: &[&OsStr]) -> Found {
    let mut found = Vec::new();
    for name in names {
        if *name != "-" && Path::new(name).is_dir() {
            let before = found.len();
            walk(Path::new(name), &mut found);
            if found.len() == before {
                let empty = unusable(format!("{} has no files", told_name(name)));
                found.push((name.into(), Err(empty)));
            }
        } else {
            found.push((name.into(), Ok(())));
        }
    }
    found
}

/// All plain files of a folder and of the folders in it, by name. A link to a file is one;
/// a link to a folder could lead back here.
fn walk(folder: &Path, found: &mut Found) {
    let entries = match sorted(folder) {
        Ok(entries) => entries,
        Err(error) => {
            let name = folder.as_os_str();
            found.push((name.into(), Err(cannot(name, "read", &error))));
            return;
        }
    };
    for path in entries {
        let linked = path.is_symlink();
        if path.is_dir() && !linked {
            walk(&path, found);
        } else if path.is_file() && !is_ours(&path) {
            found.push((path.into(), Ok(())));
        }
    }
}

fn sorted(folder: &Path) -> std::io::Result<Vec<PathBuf>> {
    let entries = fs::read_dir(folder)?.map(|entry| Ok(entry?.path()));
    let mut paths = entries.collect::<std::io::Result<Vec<PathBuf>>>()?;
    paths.sort();
    Ok(paths)
}
