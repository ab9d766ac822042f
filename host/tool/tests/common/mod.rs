//! What the tests of the tool share. Not every one of them uses all of it.
#![allow(dead_code, unused_macros, unused_imports)]

mod folder;

pub use folder::Folder;

use std::path::Path;
use std::process::{Command, Output};

pub fn text(bytes: &[u8]) -> String {
    String::from_utf8_lossy(bytes).into_owned()
}

pub fn tool() -> Command {
    Command::new(env!("CARGO_BIN_EXE_seg2"))
}

/// Words and files of a command.
macro_rules! run {
    ($($word:expr),* $(,)?) => {{
        let mut command = $crate::common::tool();
        $(command.arg(&$word);)*
        let out = command.stdin(std::process::Stdio::null()).output();
        $crate::common::ended(out.expect("the tool runs"))
    }};
}
pub(crate) use run;

/// Exit status, output, errors.
pub type Ended = (i32, String, String);

pub fn ended(out: Output) -> Ended {
    let status = out.status.code().expect("an exit status");
    (status, text(&out.stdout), text(&out.stderr))
}

/// Adds a trace to a file.
pub fn add(shot: &Path, sheet: &Path, code: &str, samples: &Path) -> Ended {
    run!(
        "add",
        shot,
        "--sheet",
        sheet,
        "--code",
        code,
        "--samples",
        samples
    )
}

/// One sentence on standard error, nothing on standard output, status 2.
pub fn sentence(ended: Ended, says: &str) {
    let (status, out, error) = ended;
    assert_eq!((status, out.as_str()), (2, ""), "{error}");
    assert!(
        error.starts_with("seg2: ") && error.ends_with('\n'),
        "{error}"
    );
    assert!(error.contains(says), "{error}");
    assert!(!error.contains("panicked"), "{error}");
}
