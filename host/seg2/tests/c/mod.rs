//! C programs of the tests: compiled against the header and the archive.

use std::path::{Path, PathBuf};
use std::process::Command;

pub fn here() -> PathBuf {
    PathBuf::from(env!("CARGO_MANIFEST_DIR"))
}

pub fn root() -> PathBuf {
    here().join("../..")
}

/// A file that is removed with this value.
pub struct Temporary(PathBuf);

impl Temporary {
    pub fn new(name: &str) -> Temporary {
        Temporary(std::env::temp_dir().join(format!("seg2-{}-{name}", std::process::id())))
    }

    pub fn path(&self) -> &Path {
        &self.0
    }
}

impl Drop for Temporary {
    fn drop(&mut self) {
        let _ = std::fs::remove_file(&self.0);
    }
}

/// Compiles a source with warnings as errors; none where there is no such compiler.
pub fn compiled(compiler: &str, options: &[&str], source: &Path, name: &str) -> Option<Temporary> {
    let program = Temporary::new(name);
    let status = Command::new(compiler)
        .args(options)
        .args(["-Wall", "-Wextra", "-Wpedantic", "-Werror", "-I"])
        .arg(root().join("include"))
        .arg(source)
        // what an -x among the options says holds no longer
        .args(["-x", "none"])
        .arg(root().join("archives/native/libseg2.a"))
        .arg("-o")
        .arg(program.path())
        .status();
    let status = match status {
        Err(error) if error.kind() == std::io::ErrorKind::NotFound => return None,
        other => other.expect("the compiler runs"),
    };
    assert!(status.success(), "{compiler} refuses {}", source.display());
    Some(program)
}

/// What a program prints; its exit status is 0.
pub fn printed(program: &Temporary) -> String {
    let out = Command::new(program.path())
        // nothing is allocated, and the sanitizer's search for leaks takes seconds
        .env("ASAN_OPTIONS", "detect_leaks=0")
        .output()
        .expect("the program runs");
    let complaint = String::from_utf8_lossy(&out.stderr);
    assert!(out.status.success(), "{}: {complaint}", out.status);
    String::from_utf8(out.stdout).expect("text")
}
