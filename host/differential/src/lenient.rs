//! Libraries that read old files (document 02, §11) in a way of their own, each right but for
//! one point. A comparison that does not notice one compares too little.
//!
//! Such a library is the archive, but for one of the lenient questions or all of them, which a
//! [`Reading`] answers: a third reading of the rules, beside the archive's and the reference's.
//! With the right one it answers as they do.

use crate::answer::Answer;
use crate::call::{Archive, Call, Library};
use crate::expected::{
    count, double, file_block, lenient, location, nothing, number, place, string, trace_block,
    yes_or_no,
};
use crate::lent::Lent;
use crate::quick::Head;
use seg2_reference as reference;
use seg2_reference::strings::{is_keyword, may_follow, NOTE};
use seg2_reference::{
    is_channel_number, Checked, File, Lenient, Manner, Refusal, StringPlace, Trace, CHANNEL_NUMBER,
};
use std::ops::Range;

/// What the strings of an area may be.
#[derive(Clone, Copy)]
pub struct Points {
    /// Whether this is a keyword.
    pub keyword: fn(&[u8]) -> bool,
    /// Whether the value of this keyword may hold line terminators.
    pub lines: fn(&[u8]) -> bool,
    /// Whether a keyword may stand behind another.
    pub follows: fn(before: &[u8], word: &[u8]) -> bool,
    /// Whether a list may end where so few bytes of its area are left, none or one.
    pub ends: fn(left: usize) -> bool,
}

/// As document 01 has them.
pub const STRICT: Points = Points {
    keyword: is_keyword,
    lines: |word| word == NOTE,
    follows: may_follow,
    ends: |_| false,
};

/// As document 02, §11, has them.
pub const LENIENT: Points = Points {
    keyword: |word| !word.is_empty() && word.iter().all(|c| matches!(c, 33..=126)),
    lines: |word| word.eq_ignore_ascii_case(NOTE),
    follows: |_, _| true,
    ends: |left| left == 0,
};

/// What a check makes of a file's own strings, of its traces', and of channel numbers.
#[derive(Clone, Copy)]
pub struct Rules {
    pub own: Points,
    pub traces: Points,
    /// Whether row 34 is given.
    pub channels: bool,
}

/// How a library reads, and what it tells.
#[derive(Clone, Copy)]
pub struct Reading {
    /// The function that is answered in this way, or all of them.
    pub function: Option<&'static str>,
    pub lenient: Rules,
    pub strict: Rules,
    /// What is told beside an answer, by the strict refusal and the question's own.
    pub beside: fn(strict: Option<Refusal>, own: Option<Refusal>) -> Option<Refusal>,
    /// What a keyword is compared as.
    pub counts_as: fn(&[u8]) -> Vec<u8>,
    /// What is asked for is taken as this.
    pub key: fn(&[u8]) -> Vec<u8>,
    /// Whether a keyword that counts as this is the asked one.
    pub is: fn(met: &[u8], key: &[u8]) -> bool,
    /// Whether a string with another keyword ends the search.
    pub passes: fn(met: &[u8], key: &[u8]) -> bool,
    /// Whether the first of several is answered, else the last.
    pub first: bool,
    /// What a value is read as a number of.
    pub text: fn(&[u8]) -> Vec<u8>,
    /// The strings that are counted and listed, of those that are there.
    pub listed: fn(&[u8], &[StringPlace]) -> Vec<StringPlace>,
    /// Whether a row is written to before it is refused.
    pub fills_first: bool,
    /// Whether keywords become what they count as, in the caller's own buffer.
    pub folds_buffer: bool,
}

/// The questions as the documents have them.
pub const RIGHT: Reading = Reading {
    function: None,
    lenient: Rules {
        own: LENIENT,
        traces: LENIENT,
        channels: false,
    },
    strict: Rules {
        own: STRICT,
        traces: STRICT,
        channels: true,
    },
    beside: |strict, _| strict,
    counts_as: |word| word.to_ascii_uppercase(),
    key: |key| key.to_vec(),
    is: |met, key| met == key,
    passes: |_, _| false,
    first: true,
    text: |value| value.to_vec(),
    listed: |_, strings| strings.to_vec(),
    fills_first: false,
    folds_buffer: false,
};

impl Reading {
    /// The rules of the lenient reading with these for all areas.
    pub const fn with(points: Points) -> Reading {
        Reading {
            lenient: Rules {
                own: points,
                traces: points,
                ..RIGHT.lenient
            },
            ..RIGHT
        }
    }

    /// The rules of the strict verdict with these for all areas.
    pub const fn with_strict(points: Points) -> Reading {
        Reading {
            strict: Rules {
                own: points,
                traces: points,
                ..RIGHT.strict
            },
            ..RIGHT
        }
    }
}

impl Rules {
    /// Rows 1 to 17 and 34, as far as these rules give them.
    fn check(&self, buffer: &[u8], length: usize) -> Result<File, Refusal> {
        first_rows(buffer, length)?;
        let head = Head::new(&buffer[..length]);
        let mut end = head.room_end;
        let first = pointer(&head, 0, end)?;
        let strings = self.own.strings(&head, -1, end..first)?;
        let mut traces: Vec<Trace> = Vec::new();
        for k in 0..head.n {
            let p = pointer(&head, k, end)?;
            let part = k as i64;
            if let Some((row, place)) = head.block_row(p, true) {
                return Err(Refusal::new(row, part, place));
            }
            let mut trace = head.block(p);
            let data = trace.data_start() as usize;
            trace.strings = self.traces.strings(&head, part, p + 32..data)?;
            end = trace.end() as usize;
            traces.push(trace);
            if self.channels && breaks_row_34(head.image, &traces) {
                return Err(Refusal::new(34, part, p + 32));
            }
        }
        Ok(File {
            order: head.order,
            m: (head.room_end - 32) as u16,
            n: head.n as u16,
            string_terminator: head.string.to_vec(),
            line_terminator: head.line.to_vec(),
            strings,
            traces,
        })
    }
}

/// Rows 1 to 7, which come before 18 in the question of one trace.
fn first_rows(buffer: &[u8], length: usize) -> Result<(), Refusal> {
    match reference::quick_keyword(buffer, length, -1, b"") {
        Err(row) if row.number != 18 => Err(row),
        _ => Ok(()),
    }
}

/// Row 8.
fn pointer(head: &Head, k: usize, least: usize) -> Result<usize, Refusal> {
    let slot = 32 + 4 * k;
    let p = head.four(slot);
    match p % 4 != 0 || p < least || p + 32 > head.image.len() {
        true => Err(Refusal::new(8, k as i64, slot)),
        false => Ok(p),
    }
}

/// Row 34 of the last of these traces.
fn breaks_row_34(image: &[u8], traces: &[Trace]) -> bool {
    let [own, first] = [traces.last(), traces.first()].map(|trace| {
        let mut strings = trace.into_iter().flat_map(|trace| &trace.strings);
        let found = strings.find(|string| &image[string.keyword.clone()] == CHANNEL_NUMBER);
        found.map(|string| &image[string.value.clone()])
    });
    own.is_some_and(|value| !is_channel_number(value)) || own.is_some() != first.is_some()
}

impl Points {
    /// The strings of an area, rows 14 to 17 each.
    fn strings(
        &self,
        head: &Head,
        part: i64,
        area: Range<usize>,
    ) -> Result<Vec<StringPlace>, Refusal> {
        let mut strings: Vec<StringPlace> = Vec::new();
        let mut at = area.start;
        while !area.is_empty() {
            let left = area.end - at;
            if !strings.is_empty() && left < 2 && (self.ends)(left) {
                break;
            }
            let refused = |row: u8| Refusal::new(row, part, at);
            let Some(next) = head.next(at, area.end).map_err(refused)? else {
                break;
            };
            let (keyword, value) = head.text(at, next);
            let word = &head.image[keyword.clone()];
            let before = strings.last().map(|s| &head.image[s.keyword.clone()]);
            let bad_value = !head.is_value((self.lines)(word), &head.image[value.clone()]);
            let rows = [
                (15, head.image[value.end..next] != *head.string),
                (16, !(self.keyword)(word) || bad_value),
                (
                    17,
                    before.is_some_and(|before| !(self.follows)(before, word)),
                ),
            ];
            if let Some((row, _)) = rows.into_iter().find(|row| row.1) {
                return Err(refused(row));
            }
            strings.push(StringPlace { keyword, value });
            at = next;
        }
        Ok(strings)
    }
}

impl Reading {
    fn answer(&self, call: Call, length: usize, lent: &mut Lent) -> Answer {
        let [buffer, key] = [&lent.buffer, &lent.key].map(|piece| piece.contents().to_vec());
        let strict = self.strict.check(&buffer, length).err();
        let file = self.lenient.check(&buffer, length);
        if let (Ok(file), true) = (&file, self.folds_buffer) {
            self.fold(file, lent.buffer.contents_mut());
        }
        let answer = file.and_then(|file| {
            let checked = Checked {
                buffer: &buffer,
                file: &file,
                manner: Manner::Lenient,
            };
            self.of_file(call, checked, &key, lent)
        });
        if answer.is_err() && self.fills_first {
            write_something(lent);
        }
        let strict = (self.beside)(strict, answer.as_ref().err().copied());
        lenient(Lenient { answer, strict }, |answer| answer)
    }

    /// The question's own rows, and its answer.
    fn of_file(
        &self,
        call: Call,
        file: Checked,
        key: &[u8],
        lent: &mut Lent,
    ) -> Result<Answer, Refusal> {
        let part = i64::from(call.part().unwrap_or(-1));
        let listed = || Ok((self.listed)(file.buffer, file.strings(part)?));
        let found = || self.find(file, part, key);
        let text = || {
            let value = found()?.map_or(&b""[..], |string| &file.buffer[string.value]);
            Ok((self.text)(value))
        };
        Ok(match call {
            Call::LenientCheck => nothing(()),
            Call::LenientFileBlock => file_block(file.block()),
            Call::LenientTraceBlock { .. } => trace_block(file.trace(part)?),
            Call::LenientStringCount { .. } => count(listed()?.len()),
            Call::LenientString { index, .. } => string(listed()?.get(index)),
            Call::LenientStrings { .. } => {
                let numbers = listed()?.into_iter().flat_map(|s| s.numbers());
                let numbers: Vec<usize> = numbers.collect();
                let row = lent.strings.contents_mut();
                if row.len() != numbers.len() {
                    return Err(Refusal::file(32, 0));
                }
                row.copy_from_slice(&numbers);
                nothing(())
            }
            Call::LenientKeyword { .. } => yes_or_no(found()?.is_some()),
            Call::LenientValue { .. } => place(found()?.map_or(0..0, |string| string.value)),
            Call::LenientNumber { .. } => number(reference::number(&text()?)?),
            Call::LenientDouble { .. } => double(reference::double(&text()?)?),
            Call::LenientLocation { .. } => location(reference::location(&text()?)?),
            Call::LenientIntegers { .. } => {
                nothing(file.integers(part, lent.integers.contents_mut())?)
            }
            _ => {
                let (row, classes) = (&mut lent.patterns, &mut lent.classes);
                nothing(file.bits(part, row.contents_mut(), classes.contents_mut())?)
            }
        })
    }

    fn find(&self, file: Checked, part: i64, key: &[u8]) -> Result<Option<StringPlace>, Refusal> {
        let key = (self.key)(key);
        let mut found = None;
        for string in file.strings(part)? {
            let met = (self.counts_as)(&file.buffer[string.keyword.clone()]);
            if (self.is)(&met, &key) && (found.is_none() || !self.first) {
                found = Some(string.clone());
            }
            if (self.passes)(&met, &key) {
                break;
            }
        }
        Ok(found)
    }

    fn fold(&self, file: &File, buffer: &mut [u8]) {
        let traces = file.traces.iter().flat_map(|trace| &trace.strings);
        for string in file.strings.iter().chain(traces) {
            let word = &mut buffer[string.keyword.clone()];
            word.copy_from_slice(&(self.counts_as)(word));
        }
    }
}

/// The first element of each row that has one becomes another.
fn write_something(lent: &mut Lent) {
    for value in lent.strings.contents_mut().iter_mut().take(1) {
        *value = !*value;
    }
    for value in lent.integers.contents_mut().iter_mut().take(1) {
        *value = !*value;
    }
    for value in lent.patterns.contents_mut().iter_mut().take(1) {
        *value = !*value;
    }
    for class in lent.classes.contents_mut().iter_mut().take(1) {
        *class = !*class;
    }
}

impl Library for Reading {
    fn call(&self, call: Call, length: usize, lent: &mut Lent) -> Answer {
        let name = call.name();
        let is_own = self.function.is_none_or(|function| function == name);
        match name.starts_with("lenient") && is_own {
            true => self.answer(call, length, lent),
            false => Archive.call(call, length, lent),
        }
    }
}
