//! Libraries that keep document 02's rule on channel numbers (§7) in a way of their own,
//! each right but for one point. A comparison that does not notice one compares too little.
//!
//! Such a library is the reference, to which CHANNEL_NUMBER is a keyword as any other, with
//! a [`Rule`] around it. With the right rule it answers as the reference does.

use crate::answer::Answer;
use crate::call::{Archive, Call, Library};
use crate::expected::{expected, told};
use crate::lent::{Lent, Memory};
use seg2_reference as reference;
use seg2_reference::sheet::sheet_strings;
use seg2_reference::{is_channel_number, File, Refusal, StringPlace, CHANNEL_NUMBER};

/// What a library makes of channel numbers, and when.
#[derive(Clone, Copy)]
pub struct Rule {
    /// Whether a value is a channel number.
    pub good: fn(&[u8]) -> bool,
    /// Whether the value of trace k is judged.
    pub judged: fn(usize) -> bool,
    /// Row 34: whether a trace that has the string, or has it not, may stand behind a
    /// trace 0 that has it, or has it not.
    pub beside: fn(own: bool, first: bool) -> bool,
    /// Row 35: the same of a sheet; nothing where the file has no traces.
    pub added: fn(own: bool, first: Option<bool>) -> bool,
    /// Row 34's place, counted from p.
    pub place: usize,
    /// When row 34 has its turn.
    pub turn: Turn,
    /// The rows of an addition that come behind 35.
    pub behind_35: &'static [u8],
    /// Whether an addition judges the traces of its file.
    pub of_file: bool,
    /// Whether the strings of the file itself are judged, by 34, and the sheet of a start,
    /// by 35.
    pub of_files_own: bool,
}

/// When row 34 has its turn.
#[derive(Clone, Copy, PartialEq, Eq)]
pub enum Turn {
    /// "after 17 within each trace"
    Behind17,
    /// Before 17 within each trace.
    Before17,
    /// Behind all rows of all traces.
    Last,
}

/// The rule as the documents have it.
pub const RIGHT: Rule = Rule {
    good: is_channel_number,
    judged: |_| true,
    beside: |own, first| own == first,
    added: |own, first| first.is_none_or(|first| own == first),
    place: 32,
    turn: Turn::Behind17,
    behind_35: &[28, 29, 30],
    of_file: true,
    of_files_own: false,
};

/// A name of the same length, and the same place among other keywords but for those that
/// begin with it, which no case has.
const OTHER: &[u8] = b"CHANNEL_NUMBEQ";

/// The bytes with one word for another of its length.
fn renamed(bytes: &[u8], from: &[u8], to: &[u8]) -> Vec<u8> {
    let mut bytes = bytes.to_vec();
    for at in 0..bytes.len().saturating_sub(from.len() - 1) {
        if bytes[at..].starts_with(from) {
            bytes[at..at + to.len()].copy_from_slice(to);
        }
    }
    bytes
}

fn veiled(bytes: &[u8]) -> Vec<u8> {
    renamed(bytes, CHANNEL_NUMBER, OTHER)
}

/// Which check it is.
#[derive(Clone, Copy, PartialEq, Eq)]
enum For {
    Reading,
    Addition,
}

/// Rows 1 to 17 alone: the file has no channel numbers under their name.
fn plain_check(veiled: &[u8], length: usize, purpose: For) -> Result<File, Refusal> {
    match purpose {
        For::Reading => reference::check(veiled, length),
        For::Addition => reference::check_for_addition(veiled, length),
    }
}

/// The file's first traces, so many of them, which pass rows 1 to 17.
fn first_traces(veiled: &[u8], length: usize, count: i64) -> Option<File> {
    let mut shorter = veiled.to_vec();
    let n = match shorter[0] {
        0x55 => (count as u16).to_le_bytes(),
        _ => (count as u16).to_be_bytes(),
    };
    shorter[6..8].copy_from_slice(&n);
    plain_check(&shorter, length, For::Addition).ok()
}

/// The value of the channel number among some strings.
fn value<'a>(veiled: &'a [u8], strings: &[StringPlace]) -> Option<&'a [u8]> {
    let place = strings
        .iter()
        .find(|s| &veiled[s.keyword.clone()] == OTHER)?;
    Some(&veiled[place.value.clone()])
}

impl Rule {
    /// Row 34 over the traces of a file.
    fn judge_traces(&self, veiled: &[u8], file: &File) -> Result<(), Refusal> {
        let values = file.traces.iter().map(|t| value(veiled, &t.strings));
        let values: Vec<Option<&[u8]>> = values.collect();
        for (k, (own, trace)) in values.iter().zip(&file.traces).enumerate() {
            let bad = (self.judged)(k) && own.is_some_and(|value| !(self.good)(value));
            let beside = (self.beside)(own.is_some(), values[0].is_some());
            if bad || !beside {
                return Err(Refusal::new(34, k as i64, trace.p as usize + self.place));
            }
        }
        let own = value(veiled, &file.strings);
        match self.of_files_own && own.is_some_and(|value| !(self.good)(value)) {
            true => Err(Refusal::file(34, 32 + usize::from(file.m))),
            false => Ok(()),
        }
    }

    /// Rows 1 to 17 and 34.
    fn check(&self, buffer: &[u8], length: usize, purpose: For) -> Result<File, Refusal> {
        let veiled = veiled(buffer);
        let answer = plain_check(&veiled, length, purpose);
        if purpose == For::Addition && !self.of_file {
            return answer;
        }
        match &answer {
            Ok(file) => self.judge_traces(&veiled, file)?,
            Err(refusal) if refusal.part >= 0 && self.turn != Turn::Last => {
                self.judge_before(&veiled, length, refusal)?
            }
            Err(_) => {}
        }
        answer
    }

    /// Row 34 of the traces before one that is refused.
    fn judge_before(&self, veiled: &[u8], length: usize, refusal: &Refusal) -> Result<(), Refusal> {
        let mut veiled = veiled.to_vec();
        let mut count = refusal.part;
        if self.turn == Turn::Before17 && refusal.number == 17 {
            // An end mark for the string that is out of order: its own trace, too.
            let place = refusal.place as usize;
            veiled[place..place + 2].fill(0);
            count += 1;
        }
        match first_traces(&veiled, length, count) {
            Some(file) => self.judge_traces(&veiled, &file),
            None => Ok(()),
        }
    }

    /// Row 35: whether a sheet is taken, behind the traces that a file has.
    fn takes(&self, sheet: &[u8], first: Option<bool>) -> bool {
        let strings = sheet_strings(sheet).unwrap_or_default();
        let own = strings.iter().find(|s| s.keyword == CHANNEL_NUMBER);
        let good = own.is_none_or(|s| (self.good)(&s.lines[0]));
        good && (self.added)(own.is_some(), first)
    }

    fn add(&self, call: Call, length: usize, memory: &mut Memory) -> Answer {
        let file = match self.check(&memory.buffer, length, For::Addition) {
            Ok(file) => file,
            Err(refusal) => return told(Err::<(), _>(refusal), |()| Answer::good([])),
        };
        let mut other = memory.clone();
        other.buffer = veiled(&memory.buffer);
        other.sheet = veiled(&memory.sheet);
        let first = file.traces.first();
        let first = first.map(|t| value(&other.buffer, &t.strings).is_some());
        let answer = expected(call, length, &mut other);
        let behind = answer.number == 0 || self.behind_35.contains(&(answer.number as u8));
        if behind && !self.takes(&memory.sheet, first) {
            return Answer::refused(35, -1, 0);
        }
        if answer.number == 0 {
            memory.buffer = renamed(&other.buffer, OTHER, CHANNEL_NUMBER);
        }
        answer
    }

    /// A question: the check of the whole file, then its own rows.
    fn ask(&self, call: Call, length: usize, memory: &mut Memory) -> Answer {
        let checked = self.check(&memory.buffer, length, For::Reading);
        if checked.is_err() {
            return told(checked, |_| Answer::good([]));
        }
        let mut other = memory.clone();
        other.buffer = veiled(&memory.buffer);
        other.key = veiled(&memory.key);
        let answer = expected(call, length, &mut other);
        memory.integers = other.integers;
        memory.patterns = other.patterns;
        memory.classes = other.classes;
        memory.strings = other.strings;
        answer
    }

    fn start(&self, call: Call, memory: &mut Memory) -> Answer {
        let mut other = memory.clone();
        let answer = expected(call, 0, &mut other);
        let refused = self.of_files_own && !self.takes(&memory.sheet, None);
        if answer.number == 0 && refused {
            return Answer::refused(35, -1, 0);
        }
        *memory = other;
        answer
    }
}

impl Library for Rule {
    fn call(&self, call: Call, length: usize, lent: &mut Lent) -> Answer {
        // The lenient reading never asks for them (document 02, §11).
        if call.strict().is_some() {
            return Archive.call(call, length, lent);
        }
        let mut memory = lent.contents();
        let answer = match call {
            Call::AddIntegers { .. } | Call::AddBits { .. } | Call::AddSize { .. } => {
                self.add(call, length, &mut memory)
            }
            Call::Start { .. } | Call::StartSize { .. } => self.start(call, &mut memory),
            Call::ReadNumber | Call::WriteNumber(_) => expected(call, length, &mut memory),
            // It reads one trace: no channel number stands beside another (document 02, §5).
            quick if quick.name().starts_with("quick") => expected(call, length, &mut memory),
            _ => self.ask(call, length, &mut memory),
        };
        lent.hold(&memory);
        answer
    }
}
