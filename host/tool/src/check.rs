//! check: does each file keep the rules?

use crate::files::{self, print, told_name};
use crate::folder;
use crate::json::{self, Object};
use crate::options::Options;
use crate::stop::{Answer, Stop};
use crate::words::{Forgiven, Leniently, Told};
use seg2::File;
use std::ffi::OsStr;
use std::io::{IsTerminal, Write};

/// From this many files on, a terminal is shown how far the work is.
const MANY: usize = 21;

/// By which rules files are read, and how the answers are told.
#[derive(Clone, Copy)]
struct Manner {
    lenient: bool,
    quiet: bool,
    json: bool,
}

/// A file's answer: accepted, by the lenient reading alone, refused, or not to be read.
enum Verdict {
    Accepted,
    Leniently(Box<Leniently>, Forgiven),
    Refused(Box<Told>),
    Unread(Stop),
}

/// How many files have each answer.
#[derive(Default)]
struct Counts {
    accepted: usize,
    leniently: usize,
    refused: usize,
    unread: usize,
}

/// One answer for each file; the worst of them is the exit status.
pub fn run(given: &Options) -> Answer {
    let manner = Manner {
        lenient: given.has("--lenient"),
        quiet: given.has("--quiet"),
        json: given.has("--json"),
    };
    let found = folder::files(given.at_least_one()?);
    let shown = wants_progress(found.len(), std::io::stderr().is_terminal());
    let all = found.len();
    let mut counts = Counts::default();
    for (i, (name, readable)) in found.into_iter().enumerate() {
        if shown {
            tell(&format!("{}\r", progress(i, all)));
        }
        let verdict = readable.map_or_else(Verdict::Unread, |()| verdict(&name, manner.lenient));
        if shown {
            // the answer's line takes the place of the progress
            tell(&format!("{:1$}\r", "", progress(all, all).len()));
        }
        *counts.of(&verdict) += 1;
        // where nobody reads the output any more, this ends
        verdict.told(&name, manner)?;
    }
    if all > 1 && !manner.quiet && !manner.json {
        print(counts.summary(manner.lenient).as_bytes())?;
    }
    Ok(counts.worst())
}

fn tell(progress: &str) {
    let _ = std::io::stderr().write_all(progress.as_bytes());
}

fn wants_progress(files: usize, terminal: bool) -> bool {
    terminal && files >= MANY
}

fn progress(done: usize, all: usize) -> String {
    format!("{done} of {all} files checked")
}

impl Counts {
    fn of(&mut self, verdict: &Verdict) -> &mut usize {
        match verdict {
            Verdict::Accepted => &mut self.accepted,
            Verdict::Leniently(..) => &mut self.leniently,
            Verdict::Refused(_) => &mut self.refused,
            Verdict::Unread(_) => &mut self.unread,
        }
    }

    /// The exit status: a file that is read leniently is accepted.
    fn worst(&self) -> u8 {
        match self {
            Counts { unread: 1.., .. } => 2,
            Counts { refused: 1.., .. } => 1,
            _ => 0,
        }
    }

    fn summary(&self, lenient: bool) -> String {
        let Counts {
            accepted,
            leniently,
            refused,
            unread,
        } = self;
        let all = accepted + leniently + refused + unread;
        let leniently = match lenient {
            true => format!(", {leniently} accepted leniently"),
            false => String::new(),
        };
        let unread = match unread {
            0 => String::new(),
            _ => format!(", {unread} not read"),
        };
        format!("{all} files: {accepted} accepted{leniently}, {refused} refused{unread}\n")
    }
}

fn verdict(name: &OsStr, lenient: bool) -> Verdict {
    let bytes = match files::shot(name) {
        Ok(bytes) => bytes,
        Err(stop) => return Verdict::Unread(stop),
    };
    if lenient {
        return lenient_verdict(name, &bytes);
    }
    match seg2::check(&bytes, bytes.len()) {
        Ok(()) => Verdict::Accepted,
        Err(refusal) => {
            let told = Told::of_file_with_hint(name, &bytes, &refusal);
            Verdict::Refused(Box::new(told))
        }
    }
}

/// By the lenient reading (document 02, §11).
fn lenient_verdict(name: &OsStr, bytes: &[u8]) -> Verdict {
    let file = match File::open_lenient(bytes) {
        Ok(file) => file,
        Err(refused) => {
            let told = Told::of_lenient(name, bytes, &refused);
            return Verdict::Refused(Box::new(told));
        }
    };
    match Leniently::of(name, &file) {
        Some(leniently) => Verdict::Leniently(Box::new(leniently), Forgiven::of(&file)),
        None => Verdict::Accepted,
    }
}

impl Verdict {
    fn told(&self, name: &OsStr, manner: Manner) -> Answer {
        if let Verdict::Unread(stop) = self {
            stop.tell();
        }
        if manner.quiet && matches!(self, Verdict::Accepted | Verdict::Leniently(..)) {
            return Ok(0);
        }
        let said = if manner.json {
            self.json(name, manner.lenient)
        } else {
            self.text(name)
        };
        print(said.as_bytes())
    }

    fn text(&self, name: &OsStr) -> String {
        match self {
            Verdict::Accepted => format!("{}: accepted\n", told_name(name)),
            Verdict::Leniently(leniently, all) => leniently.text(all),
            Verdict::Refused(told) => told.text(),
            Verdict::Unread(_) => String::new(),
        }
    }

    fn json(&self, name: &OsStr, lenient: bool) -> String {
        let object = match self {
            Verdict::Accepted if lenient => json::accepted_leniently(name, None).end(),
            Verdict::Accepted => Object::of(name).field("accepted", true).end(),
            Verdict::Leniently(leniently, all) => {
                let object = json::accepted_leniently(name, Some(leniently));
                object.field("forgiven", json::forgiven(all)).end()
            }
            Verdict::Refused(told) if lenient => json::refused_leniently(name, told),
            Verdict::Refused(told) => json::refused(name, told),
            Verdict::Unread(stop) => json::unread(name, stop.sentence()),
        };
        object + "\n"
    }
}

#[cfg(test)]
mod tests {
    use super::*;

    #[test]
    fn many_files_on_a_terminal_have_progress() {
        assert!(wants_progress(21, true));
        assert!(!wants_progress(20, true));
        assert!(!wants_progress(1000, false));
        assert_eq!(progress(3, 40), "3 of 40 files checked");
    }

    #[test]
    fn the_summary_counts() {
        let mut counts = Counts {
            accepted: 2,
            refused: 1,
            ..Counts::default()
        };
        assert_eq!(counts.worst(), 1);
        let said = counts.summary(false);
        assert_eq!(said, "3 files: 2 accepted, 1 refused\n");
        counts.unread = 4;
        assert_eq!(counts.worst(), 2);
        let said = counts.summary(false);
        assert_eq!(said, "7 files: 2 accepted, 1 refused, 4 not read\n");
        // read leniently, which no exit status tells
        let counts = Counts {
            accepted: 2,
            leniently: 3,
            ..Counts::default()
        };
        assert_eq!(counts.worst(), 0);
        let said = counts.summary(true);
        assert_eq!(
            said,
            "5 files: 2 accepted, 3 accepted leniently, 0 refused\n"
        );
    }
}
