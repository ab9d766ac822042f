//! Files and standard output, with a sentence for each thing that can go wrong.

use crate::stop::{unheard, unusable, Answer, Stop};
use std::ffi::OsStr;
use std::fs::{self, File};
use std::io::{self, ErrorKind, Read, Write};
use std::sync::atomic::{AtomicBool, Ordering};

/// A text of samples is at most this long: 64 bytes for each of the most samples that a
/// file can hold.
const MAXIMUM_TEXT: usize = 1 << 31;

/// A system's reason, in words for a crew where it is a common one.
fn reason(error: &io::Error) -> String {
    match error.kind() {
        ErrorKind::NotFound => "there is no such file or folder".into(),
        ErrorKind::PermissionDenied => "the system does not allow it".into(),
        ErrorKind::AlreadyExists => "it is there already".into(),
        _ => error.to_string(),
    }
}

pub fn cannot(name: &OsStr, what: &str, error: &io::Error) -> Stop {
    let name = told_name(name);
    unusable(format!("{name} cannot be {what}: {}", reason(error)))
}

/// A file's name as it is told: on one line, whatever it holds.
pub fn told_name(name: &OsStr) -> String {
    let mut told = String::new();
    for c in name.to_string_lossy().chars() {
        if c.is_control() {
            told.extend(c.escape_default());
        } else {
            told.push(c);
        }
    }
    told
}

/// What may be read: at most so many bytes, as a kind of file that has no more.
#[derive(Clone, Copy)]
struct Limit {
    most: usize,
    kind: &'static str,
}

const SHOT: Limit = Limit {
    most: seg2::MAXIMUM_LENGTH,
    kind: "a SEG-2 file",
};

const SHEET: Limit = Limit {
    most: seg2::MAXIMUM_LENGTH,
    kind: "a sheet",
};

const TEXT: Limit = Limit {
    most: MAXIMUM_TEXT,
    kind: "a text of samples",
};

impl Limit {
    fn exceeded(self, name: &OsStr) -> Stop {
        let (name, most) = (told_name(name), grouped(self.most));
        unusable(format!(
            "{name} is too long: {} has at most {most} bytes",
            self.kind
        ))
    }

    /// All bytes of what is open.
    fn read(self, name: &OsStr, from: impl Read) -> Answer<Vec<u8>> {
        let mut bytes = Vec::new();
        // one byte more than there may be tells that there are too many
        let read = from.take(self.most as u64 + 1).read_to_end(&mut bytes);
        read.map_err(|error| cannot(name, "read", &error))?;
        if bytes.len() > self.most {
            return Err(self.exceeded(name));
        }
        Ok(bytes)
    }

    /// All bytes of a file, or of standard input for `-`.
    fn bytes_of(self, name: &OsStr) -> Answer<Vec<u8>> {
        if name == "-" {
            return self.read(name, standard_input()?);
        }
        let about = fs::metadata(name).map_err(|error| cannot(name, "read", &error))?;
        if about.is_dir() {
            let name = told_name(name);
            return Err(unusable(format!("{name} is a folder, not a file")));
        }
        if about.is_file() && about.len() > self.most as u64 {
            return Err(self.exceeded(name));
        }
        let file = File::open(name).map_err(|error| cannot(name, "read", &error))?;
        self.read(name, file)
    }
}

/// Standard input, which can be read to its end once.
fn standard_input() -> Answer<io::StdinLock<'static>> {
    static READ: AtomicBool = AtomicBool::new(false);
    if READ.swap(true, Ordering::Relaxed) {
        return Err(unusable(
            "- is standard input, which is read once: give it once".into(),
        ));
    }
    Ok(io::stdin().lock())
}

/// The bytes of a shot file, some at least and not too many.
pub fn shot(name: &OsStr) -> Answer<Vec<u8>> {
    some(name, SHOT.bytes_of(name)?)
}

/// The same of a file that is open.
pub fn read_shot(name: &OsStr, file: &File) -> Answer<Vec<u8>> {
    some(name, SHOT.read(name, file)?)
}

fn some(name: &OsStr, bytes: Vec<u8>) -> Answer<Vec<u8>> {
    if bytes.is_empty() {
        let name = told_name(name);
        return Err(unusable(format!(
            "{name} is empty: a SEG-2 file has at least 32 bytes"
        )));
    }
    Ok(bytes)
}

/// The bytes of a sheet; an empty one has no strings.
pub fn sheet(name: &OsStr) -> Answer<Vec<u8>> {
    SHEET.bytes_of(name)
}

/// A text of samples.
pub fn text(name: &OsStr) -> Answer<String> {
    let bytes = TEXT.bytes_of(name)?;
    let not_text = |_| unusable(format!("{} is no text", told_name(name)));
    String::from_utf8(bytes).map_err(not_text)
}

/// Refuses standard input where a file is written.
pub fn no_input(name: &OsStr) -> Answer<()> {
    if name == "-" {
        return Err(unusable(
            "- is standard input, and a file is written: give its name (./- where that is its name)"
                .into(),
        ));
    }
    Ok(())
}

/// Prints to standard output; status 0.
pub fn print(bytes: &[u8]) -> Answer {
    let mut out = io::stdout().lock();
    let written = out.write_all(bytes).and_then(|()| out.flush());
    written.map(|()| 0).map_err(|error| match error.kind() {
        ErrorKind::BrokenPipe => unheard(),
        _ => unusable(format!("the output cannot be written: {error}")),
    })
}

/// Prints what was done. It stays done where nobody listens.
pub fn confirm(said: &str) -> Answer {
    print(said.as_bytes()).or_else(|stop| {
        if stop.is_unheard() {
            return Ok(0);
        }
        Err(unusable(format!("it is done, but {}", stop.sentence())))
    })
}

/// A number with commas between its thousands.
pub fn grouped(number: usize) -> String {
    let digits = number.to_string();
    let mut out = String::new();
    for (i, digit) in digits.chars().enumerate() {
        if i > 0 && (digits.len() - i) % 3 == 0 {
            out.push(',');
        }
        out.push(digit);
    }
    out
}

#[cfg(test)]
mod tests {
    use super::*;

    #[test]
    fn thousands_are_grouped() {
        let said: Vec<String> = [0, 999, 1000, 67_108_864].map(grouped).into();
        assert_eq!(said, ["0", "999", "1,000", "67,108,864"]);
    }

    #[test]
    fn a_name_is_told_on_one_line() {
        let name = OsStr::new("shot 1\n\u{1b}[2J\té.sg2");
        assert_eq!(told_name(name), "shot 1\\n\\u{1b}[2J\\té.sg2");
    }
}
