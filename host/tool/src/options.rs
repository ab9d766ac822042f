//! The words of a command: files and options.

use crate::files::told_name;
use crate::help::Command;
use crate::stop::{unusable, Answer, Stop};
use std::ffi::{OsStr, OsString};
use std::os::unix::ffi::OsStrExt;

/// Words that are no options, options with a value, and flags.
pub struct Options<'a> {
    command: &'static Command,
    plain: Vec<&'a OsStr>,
    values: Vec<(&'static str, &'a OsStr)>,
    flags: Vec<&'static str>,
}

/// What asks for a command's help.
const HELP: [&str; 2] = ["--help", "-h"];

impl<'a> Options<'a> {
    /// Parts the words of a command. None where its help is asked for.
    pub fn of(command: &'static Command, words: &'a [OsString]) -> Answer<Option<Options<'a>>> {
        let mut parted = Options {
            command,
            plain: Vec::new(),
            values: Vec::new(),
            flags: Vec::new(),
        };
        let mut words = words.iter().map(OsString::as_os_str);
        while let Some(word) = words.next() {
            if word == "--" {
                // whatever follows is no option
                parted.plain.extend(words);
                break;
            }
            if HELP.iter().any(|help| word == *help) {
                return Ok(None);
            }
            if is_option(word) {
                parted.take(word, &mut words)?;
            } else {
                parted.plain.push(word);
            }
        }
        Ok(Some(parted))
    }

    /// `--flag`, `--name value` or `--name=value`.
    fn take(&mut self, word: &'a OsStr, rest: &mut impl Iterator<Item = &'a OsStr>) -> Answer<()> {
        let (name, value) = parted_at_equals(word);
        let mut options = self.command.options.iter();
        let known = options.find(|known| name == known.name);
        let known = known.ok_or_else(|| unknown(word))?;
        let (name, is_flag) = (known.name, known.value.is_empty());
        if self.value(name).is_some() || self.has(name) {
            return Err(unusable(format!("{name} is given twice")));
        }
        if !is_flag {
            let missing = || unusable(format!("{name} needs a value"));
            let value = value.or_else(|| rest.next()).ok_or_else(missing)?;
            self.values.push((name, value));
        } else if value.is_some() {
            return Err(unusable(format!("{name} takes no value")));
        } else {
            self.flags.push(name);
        }
        Ok(())
    }

    /// The words that are no options, where there are as many as the command takes.
    pub fn exactly<const N: usize>(&self) -> Answer<[&'a OsStr; N]> {
        let plain = self.plain.clone();
        plain.try_into().map_err(|_| self.usage())
    }

    pub fn at_least_one(&self) -> Answer<&[&'a OsStr]> {
        if self.plain.is_empty() {
            return Err(self.usage());
        }
        Ok(&self.plain)
    }

    pub fn usage(&self) -> Stop {
        unusable(format!("usage: {}", self.command.usage()))
    }

    pub fn value(&self, name: &str) -> Option<&'a OsStr> {
        let mut values = self.values.iter();
        values
            .find(|(given, _)| *given == name)
            .map(|(_, value)| *value)
    }

    pub fn needed(&self, name: &str) -> Answer<&'a OsStr> {
        self.value(name)
            .ok_or_else(|| unusable(format!("{name} is missing")))
    }

    pub fn has(&self, name: &str) -> bool {
        self.flags.contains(&name)
    }
}

/// `-` is standard input and `-1` a number; any other word that starts so is an option.
fn is_option(word: &OsStr) -> bool {
    matches!(word.as_bytes(), [b'-', next, ..] if !next.is_ascii_digit())
}

fn parted_at_equals(word: &OsStr) -> (&OsStr, Option<&OsStr>) {
    let bytes = word.as_bytes();
    match bytes.iter().position(|&c| c == b'=') {
        Some(at) => (
            OsStr::from_bytes(&bytes[..at]),
            Some(OsStr::from_bytes(&bytes[at + 1..])),
        ),
        None => (word, None),
    }
}

fn unknown(word: &OsStr) -> Stop {
    let word = told_name(word);
    unusable(format!(
        "{word} is no option of this command; where it is a name, put -- before it"
    ))
}

/// A word as a whole number.
pub fn whole<T: std::str::FromStr>(word: &OsStr, what: &str) -> Answer<T> {
    let text = word.to_string_lossy();
    let number = text
        .parse()
        .map_err(|_| unusable(format!("`{text}` is no {what}")))?;
    Ok(number)
}
