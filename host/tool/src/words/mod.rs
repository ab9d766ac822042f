//! What a crew is told of a refusal. Number, part and place are the proved library's; what
//! stands at that place, and so why, is found here beside them.

mod channel;
mod character;
mod file;
mod lenient;
mod number;
mod sheet;
mod strings;

pub use channel::sheet_found;
pub use lenient::{Forgiven, Leniently};
pub use number::{no_such_trace, value_found, Asked};
pub use sheet::line_found;

use crate::explain;
use crate::files::{grouped, told_name};
use crate::stop::{refused, Stop};
use seg2::{LenientRefusal, Refusal};
use std::ffi::OsStr;
use std::fmt::Write as _;

/// A refusal with what was found at its place.
pub struct Told {
    /// Whose refusal it is: a shot file, a sheet, samples.
    name: String,
    pub refusal: Refusal,
    pub found: String,
    pub to_do: String,
    /// Bytes around the place.
    shown: String,
    /// Of a file that is not even read leniently: the strict refusal, where it is another.
    pub strict: Option<Box<Told>>,
}

/// What was found.
pub struct Found {
    text: String,
    /// Whether the file ends before all of it is there.
    cut_off: bool,
}

impl From<String> for Found {
    fn from(text: String) -> Found {
        Found {
            text,
            cut_off: false,
        }
    }
}

/// "Cut off", as a file is that was not copied to its end.
fn cut_off(there: usize, needed: usize) -> Found {
    let (there, needed) = (grouped(there), grouped(needed));
    Found {
        text: format!("cut off: {there} bytes there, at least {needed} needed"),
        cut_off: true,
    }
}

const CUT_OFF: &str = "copy the file again from where it was recorded";

impl Told {
    pub fn new(name: &OsStr, refusal: &Refusal, found: impl Into<Found>) -> Told {
        let found = found.into();
        Told {
            name: told_name(name),
            refusal: *refusal,
            found: found.text,
            to_do: if found.cut_off {
                CUT_OFF.into()
            } else {
                explain::to_do(refusal.number).into()
            },
            shown: String::new(),
            strict: None,
        }
    }

    /// A refusal by a row of the check, of a file with these bytes.
    pub fn of_file(name: &OsStr, bytes: &[u8], refusal: &Refusal) -> Told {
        Told {
            shown: around(bytes, refusal),
            ..Told::new(name, refusal, file::found(bytes, refusal))
        }
    }

    /// The same of a command that can read leniently, for a file which that helps.
    pub fn of_file_with_hint(name: &OsStr, bytes: &[u8], refusal: &Refusal) -> Told {
        let mut told = Told::of_file(name, bytes, refusal);
        let may_be = matches!(refusal.number, 14 | 16 | 17 | 34);
        if may_be && seg2::check_lenient(bytes, bytes.len()).is_ok() {
            told.to_do += "; or use --lenient, which reads this file as it is";
        }
        told
    }

    /// A refusal of the lenient reading, and the strict one where it is another.
    pub fn of_lenient(name: &OsStr, bytes: &[u8], refused: &LenientRefusal) -> Told {
        let LenientRefusal { refusal, strict } = refused;
        let other = (strict != refusal).then(|| Box::new(Told::of_file(name, bytes, strict)));
        Told {
            shown: around(bytes, refusal),
            strict: other,
            ..Told::new(name, refusal, file::found_leniently(bytes, refusal))
        }
    }

    /// A refusal of a question that reads one trace of a file with these bytes, and no other.
    pub fn of_trace(name: &OsStr, bytes: &[u8], asked: usize, refusal: &Refusal) -> Told {
        Told {
            shown: around(bytes, refusal),
            ..Told::new(name, refusal, file::found_in_trace(bytes, asked, refusal))
        }
    }

    /// All lines, the last of which says where there are more words.
    pub fn text(&self) -> String {
        let Told { name, refusal, .. } = self;
        let mut out = format!("{name}: {refusal}\n");
        let _ = writeln!(out, "    found: {}", self.found);
        let _ = writeln!(out, "    to do: {}", self.to_do);
        out += &self.shown;
        if let Some(strict) = &self.strict {
            let _ = writeln!(out, "    by the strict rules: {}", strict.refusal);
            let _ = writeln!(out, "        found: {}", strict.found);
        }
        let _ = writeln!(out, "    more: ./seg2 explain {}", refusal.number);
        out
    }

    pub fn stop(&self) -> Stop {
        refused(self.text())
    }
}

/// The bytes around the place of a refusal by a row of the check but 1, which is in
/// brackets; three lines at most. Nothing for a refusal without a byte of the file.
fn around(bytes: &[u8], refusal: &Refusal) -> String {
    let mut out = String::new();
    if refusal.number == 1 || !refusal.is_of_check() {
        return out;
    }
    let line = refusal.place / 16;
    for line in line.saturating_sub(1)..=line + 1 {
        let Some(rest) = bytes.get(16 * line..).filter(|rest| !rest.is_empty()) else {
            break;
        };
        let part = &rest[..rest.len().min(16)];
        let mut hex = String::new();
        for (i, byte) in part.iter().enumerate() {
            let here = 16 * line + i == refusal.place;
            let (left, right) = if here { ('[', ']') } else { (' ', ' ') };
            let _ = write!(hex, "{left}{byte:02X}{right}");
        }
        let _ = writeln!(out, "{:>10} {hex:<64} {}", 16 * line, shown(part));
    }
    if refusal.place >= bytes.len() {
        let _ = writeln!(out, "{:>10} (the file ends here)", bytes.len());
    }
    out
}

/// Bytes as text, a point for what has no character.
fn shown(bytes: &[u8]) -> String {
    let character = |&byte: &u8| match byte {
        32..=126 => char::from(byte),
        _ => '.',
    };
    bytes.iter().map(character).collect()
}

/// Bytes between backticks, cut where they are many.
fn quoted(bytes: &[u8]) -> String {
    const MANY: usize = 60;
    let cut = bytes.len() > MANY;
    let said = bytes[..bytes.len().min(MANY)].escape_ascii();
    format!("`{said}`{}", if cut { " .." } else { "" })
}

/// Bytes in hexadecimal, as the documents write them.
fn hex(bytes: &[u8]) -> String {
    let bytes: Vec<String> = bytes.iter().map(|byte| format!("{byte:02X}h")).collect();
    bytes.join(" ")
}

/// Whether a keyword may follow another by the strict rules.
fn may_follow(before: &[u8], keyword: &[u8]) -> bool {
    match (before, keyword) {
        (b"NOTE", _) => false,
        (_, b"NOTE") => true,
        (b"RECEIVER_GEOMETRY" | b"SOURCE_GEOMETRY", _) if before == keyword => true,
        _ => before < keyword,
    }
}

/// Why a keyword may not follow another.
fn order_found(before: &[u8], keyword: &[u8]) -> String {
    let said = quoted(keyword);
    match before {
        _ if before == keyword => format!("{said} is there twice"),
        b"NOTE" => format!("{said} follows NOTE, which comes last"),
        _ => format!("{said} follows {}, and comes before it", quoted(before)),
    }
}

#[cfg(test)]
mod tests {
    use super::*;

    #[test]
    fn the_place_is_in_brackets() {
        let bytes: Vec<u8> = (0..40).collect();
        let refusal = |number, place| Refusal {
            number,
            part: -1,
            place,
        };
        let at = |place| around(&bytes, &refusal(14, place));
        assert_eq!(at(0).lines().count(), 2);
        assert!(at(0).starts_with("         0 [00] 01  02 "), "{}", at(0));
        assert_eq!(at(20).lines().count(), 3);
        assert!(at(20).contains("[14]"));
        assert!(at(39).contains("[27]"));
        assert!(at(39).ends_with(" !\"#$%&'\n"), "{}", at(39));
        let end = at(40);
        assert!(end.ends_with("        40 (the file ends here)\n"), "{end}");
        assert_eq!(around(&bytes, &refusal(1, 0)), "");
    }

    #[test]
    fn the_order_is_told_by_its_three_cases() {
        assert_eq!(order_found(b"A", b"A"), "`A` is there twice");
        assert_eq!(order_found(b"NOTE", b"NOTE"), "`NOTE` is there twice");
        let last = order_found(b"NOTE", b"Z");
        assert_eq!(last, "`Z` follows NOTE, which comes last");
        let before = order_found(b"STACK", b"DELAY");
        assert_eq!(before, "`DELAY` follows `STACK`, and comes before it");
    }
}
