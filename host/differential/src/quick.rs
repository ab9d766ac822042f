//! Libraries that answer the questions of one trace (document 02, §5) in a way of their own,
//! each right but for one point. A comparison that does not notice one compares too little.
//!
//! Such a library is the archive, but for one of these questions or all of them, which a
//! [`Way`] answers: a third reading of the rules, beside the archive's and the reference's.
//! With the right way it answers as they do.

use crate::answer::Answer;
use crate::call::{Archive, Call, Library};
use crate::expected::{
    count, double, location, nothing, number, place, string, told, trace_block, yes_or_no,
};
use crate::lent::{Frame, Lent, Pattern};
use seg2_reference as reference;
use seg2_reference::samples::{
    class_of_code_4, class_of_code_5, decode_bits, decode_integers, needed_bytes,
};
use seg2_reference::strings::{is_keyword, is_separator, may_follow, NOTE};
use seg2_reference::words::{u16_at, u32_at};
use seg2_reference::{Order, Refusal, StringPlace, Trace};
use std::ops::Range;

/// How a library searches, and what it judges on the way.
#[derive(Clone, Copy)]
pub struct Way {
    /// The function that is answered in this way, or all of them.
    pub function: Option<&'static str>,
    /// Whether a string's keyword is the asked one.
    pub is: fn(met: &[u8], key: &[u8]) -> bool,
    /// Whether a string with another keyword ends the search.
    pub passes: fn(met: &[u8], key: &[u8]) -> bool,
    /// Which strings rows 15 to 17 judge.
    pub judges: fn(Turn) -> bool,
    /// Whether row 17 judges a string by the one before it.
    pub in_order: bool,
    /// Whether the string behind the one that ends the search is judged, too.
    pub one_more: bool,
    /// Whether the last string of a list is looked at.
    pub last: bool,
    /// Whether an area has to have an end mark.
    pub end_mark: bool,
    /// Whether the first of several is answered, else the last.
    pub first: bool,
    /// Where the empty value of a no stands, for an area that starts here.
    pub no: fn(usize) -> usize,
    /// Which slot is trace k's.
    pub slot: fn(usize) -> usize,
    /// What row 8 asks of a pointer at least.
    pub least: Least,
    /// Whether 18 has its turn before 8, else behind it.
    pub before_8: bool,
    /// The row of a file without traces.
    pub without_traces: u8,
    /// Whether rows 11 to 13 are judged.
    pub samples: bool,
    /// The part that the rows of trace k tell.
    pub part: fn(i64) -> i64,
    /// Whether -1 is the file, as in the full question.
    pub of_file: bool,
    pub also: Also,
    /// Which string an index names.
    pub index: fn(usize) -> usize,
    /// The row of an index past the last string, if it is refused.
    pub past: Option<u8>,
    /// Whether a row of so many elements is one for so many.
    pub fits: fn(row: usize, count: usize) -> bool,
    /// Whether rows 14 to 17 of all strings come before 32, else only those of row 14.
    pub strings_first: bool,
    /// Whether 33 comes before 32.
    pub kind_first: bool,
    /// Whether the row of classes has to fit.
    pub classes: bool,
    /// Whether a row is filled as far as it goes before it is refused by 32, or by a string
    /// behind others.
    pub fills_first: bool,
    /// The four numbers of a string, for a trace that starts here.
    pub four: fn([usize; 4], usize) -> [usize; 4],
    /// How many samples a block has.
    pub count: fn(&Trace) -> usize,
    /// Where the data start.
    pub data: fn(&Trace) -> usize,
    /// Whether all elements of a row are written, else all but the last.
    pub whole: bool,
    /// The refusal of a value's text that starts here in the file.
    pub text: fn(Refusal, usize) -> Refusal,
    /// Whether the value of an absent keyword is empty, else "0".
    pub absent_is_empty: bool,
}

/// What a string is to a walk.
#[derive(Clone, Copy, PartialEq, Eq)]
pub enum Turn {
    Before,
    Found,
    Passed,
}

/// The least that a pointer may be.
#[derive(Clone, Copy, PartialEq, Eq)]
pub enum Least {
    /// "below 32+M"
    Room,
    /// The previous trace's end, as in the full check.
    PreviousEnd,
    /// Any byte behind the fixed part.
    Head,
}

/// What else is judged, if anything.
#[derive(Clone, Copy, PartialEq, Eq)]
pub enum Also {
    Nothing,
    /// The whole file, before anything.
    File,
    /// Row 34 of the whole file, behind everything.
    Row34,
    /// The file's own strings, where its first pointer tells their end.
    FilesStrings,
    /// The trace's strings, whatever is asked.
    Strings,
}

/// The questions as the documents have them.
pub const RIGHT: Way = Way {
    function: None,
    is: |met, key| met == key,
    passes: |met, key| key != NOTE && (met == NOTE || met > key),
    judges: |_| true,
    in_order: true,
    one_more: false,
    last: true,
    end_mark: true,
    first: true,
    no: |_| 0,
    slot: |k| k,
    least: Least::Room,
    before_8: true,
    without_traces: 5,
    samples: true,
    part: |k| k,
    of_file: false,
    also: Also::Nothing,
    index: |i| i,
    past: None,
    fits: |row, count| row == count,
    strings_first: true,
    kind_first: true,
    classes: true,
    fills_first: false,
    four: |four, _| four,
    count: |block| block.s as usize,
    data: |block| block.data_start() as usize,
    whole: true,
    text: |refusal, _| refusal,
    absent_is_empty: true,
};

/// What the file block's first 32 bytes say, once rows 1 to 7 have passed.
pub(crate) struct Head<'a> {
    pub image: &'a [u8],
    pub order: Order,
    pub room_end: usize,
    pub n: usize,
    pub string: &'a [u8],
    pub line: &'a [u8],
}

impl<'a> Head<'a> {
    pub fn new(image: &'a [u8]) -> Head<'a> {
        let order = match image[0] {
            0x55 => Order::Low,
            _ => Order::High,
        };
        let two = |at| usize::from(u16_at(image, at, order));
        let terminator = |at: usize| &image[at + 1..at + 1 + usize::from(image[at])];
        Head {
            image,
            order,
            room_end: 32 + two(4),
            n: two(6),
            string: terminator(8),
            line: terminator(11),
        }
    }

    pub fn two(&self, at: usize) -> usize {
        usize::from(u16_at(self.image, at, self.order))
    }

    pub fn four(&self, at: usize) -> usize {
        u32_at(self.image, at, self.order) as usize
    }

    /// Where the trace before this one ends, as its own block tells.
    fn previous_end(&self, k: usize) -> usize {
        match k.checked_sub(1) {
            None => self.room_end,
            Some(before) => {
                let p = self.four(32 + 4 * before);
                p + self.two(p + 2) + self.four(p + 4)
            }
        }
    }

    /// Rows 9 to 13 of the block at p: the first that is broken, and its place.
    pub fn block_row(&self, p: usize, samples: bool) -> Option<(u8, usize)> {
        let [b, d, s] = [self.two(p + 2), self.four(p + 4), self.four(p + 8)];
        let code = self.image[p + 12];
        let needed = needed_bytes(code, s as u64);
        let past = |place: usize| place > self.image.len();
        let too_many = code == 3 && s % 4 != 0 || needed.is_some_and(|bytes| bytes > d as u64);
        let rows = [
            (9, p, self.two(p) != 0x4422),
            (10, p + 2, b < 32 || b % 4 != 0 || past(p + b)),
            (11, p + 4, samples && (d % 4 != 0 || past(p + b + d))),
            (12, p + 12, samples && needed.is_none()),
            (13, p + 8, samples && too_many),
        ];
        let broken = rows.into_iter().find(|row| row.2)?;
        Some((broken.0, broken.1))
    }

    /// What the block at p says, without strings.
    pub fn block(&self, p: usize) -> Trace {
        Trace {
            p: p as u32,
            b: self.two(p + 2) as u16,
            d: self.four(p + 4) as u32,
            s: self.four(p + 8) as u32,
            code: self.image[p + 12],
            strings: Vec::new(),
        }
    }

    /// Row 14: where the string at a place ends, nothing at an end mark.
    pub fn next(&self, at: usize, end: usize) -> Result<Option<usize>, u8> {
        if at + 2 > end {
            return Err(14);
        }
        match self.two(at) {
            0 => Ok(None),
            o if o < 3 + self.string.len() || at + o > end => Err(14),
            o => Ok(Some(at + o)),
        }
    }

    /// Keyword and value of the string between two places.
    pub fn text(&self, at: usize, next: usize) -> (Range<usize>, Range<usize>) {
        let end = next - self.string.len();
        let at = at + 2;
        let is_part = |i: &usize| is_separator(self.image[*i]);
        let keyword_end = (at..end).find(is_part).unwrap_or(end);
        let value = (keyword_end..end).find(|i| !is_part(i)).unwrap_or(end);
        (at..keyword_end, value..end)
    }

    /// Rows 15 to 17 of it, behind the keyword before it.
    fn string_row(&self, at: usize, next: usize, before: Option<&[u8]>) -> Option<u8> {
        let (keyword, value) = self.text(at, next);
        let word = &self.image[keyword];
        let rows = [
            (15, self.image[value.end..next] != *self.string),
            (
                16,
                !is_keyword(word) || !self.is_value(word == NOTE, &self.image[value]),
            ),
            (17, before.is_some_and(|before| !may_follow(before, word))),
        ];
        rows.into_iter().find(|row| row.1).map(|row| row.0)
    }

    /// "It uses 32 to 126 and tab, in NOTE also whole line terminators, matched from the
    /// left."
    pub fn is_value(&self, in_note: bool, mut value: &[u8]) -> bool {
        while let Some((&c, rest)) = value.split_first() {
            value = match value.strip_prefix(self.line) {
                Some(behind) if in_note => behind,
                _ if matches!(c, 9 | 32..=126) => rest,
                _ => return false,
            };
        }
        true
    }
}

/// What a walk over strings is for.
#[derive(Clone, Copy)]
enum Sought<'a> {
    Key(&'a [u8]),
    Index(usize),
    All,
}

/// The strings of a walk up to what ended it, and the one that was sought.
#[derive(Default)]
struct Walked {
    strings: Vec<StringPlace>,
    found: Option<StringPlace>,
    /// The row that ended it.
    refused: Option<Refusal>,
}

/// A trace that a question has come to, behind row 13.
struct Reached<'a> {
    head: Head<'a>,
    /// The number that refusals tell.
    part: i64,
    block: Trace,
    /// Where its strings stand.
    area: Range<usize>,
}

impl Way {
    fn answer(&self, call: Call, length: usize, lent: &mut Lent) -> Result<Answer, Refusal> {
        let [buffer, key] = [&lent.buffer, &lent.key].map(|piece| piece.contents().to_vec());
        let whole = match self.also {
            Also::File | Also::Row34 => reference::check(&buffer, length).err(),
            _ => None,
        };
        if let Some(row) = whole.filter(|_| self.also == Also::File) {
            return Err(row);
        }
        let trace = call.part().expect("a question of one trace");
        let at = match self.of_file && trace == -1 {
            true => self.file_as_trace(&buffer, length)?,
            false => {
                self.first_rows(&buffer, length)?;
                self.reach(Head::new(&buffer[..length]), trace.into())?
            }
        };
        match whole.filter(|row| row.number == 34) {
            Some(row) => self
                .of_trace(call, &at, &key, &mut lent.clone())
                .and(Err(row)),
            None => self.of_trace(call, &at, &key, lent),
        }
    }

    /// The question's own rows, and its answer.
    fn of_trace(
        &self,
        call: Call,
        at: &Reached,
        key: &[u8],
        lent: &mut Lent,
    ) -> Result<Answer, Refusal> {
        Ok(match call {
            Call::QuickTraceBlock { .. } => trace_block(&at.block),
            Call::QuickStringCount { .. } => count(self.strings(at)?.len()),
            Call::QuickString { index, .. } => {
                let found = self.seek(at, Sought::Index((self.index)(index)))?;
                match (found, self.past) {
                    (None, Some(row)) => return Err(Refusal::file(row, 0)),
                    (found, _) => string(found.as_ref()),
                }
            }
            Call::QuickStrings { .. } => nothing(self.fill_strings(at, lent)?),
            Call::QuickKeyword { .. } => yes_or_no(self.seek(at, Sought::Key(key))?.is_some()),
            Call::QuickValue { .. } => place(self.value(at, key)?),
            Call::QuickNumber { .. } => number(self.read(at, key, reference::number)?),
            Call::QuickDouble { .. } => double(self.read(at, key, reference::double)?),
            Call::QuickLocation { .. } => location(self.read(at, key, reference::location)?),
            Call::QuickIntegers { .. } => nothing(self.integers(at, lent)?),
            _ => nothing(self.bits(at, lent)?),
        })
    }

    /// The file itself, with its strings for a trace's.
    fn file_as_trace<'a>(&self, buffer: &'a [u8], length: usize) -> Result<Reached<'a>, Refusal> {
        reference::check(buffer, length)?;
        let head = Head::new(&buffer[..length]);
        Ok(Reached {
            area: head.room_end..head.four(32),
            head,
            part: -1,
            block: Trace {
                p: 0,
                b: 32,
                d: 0,
                s: 0,
                code: 1,
                strings: Vec::new(),
            },
        })
    }

    /// Rows 1 to 7, which come before 18 in any file.
    fn first_rows(&self, buffer: &[u8], length: usize) -> Result<(), Refusal> {
        match reference::quick_keyword(buffer, length, -1, b"") {
            Err(row) if row.number == 18 => Ok(()),
            Err(row) if row.number == 5 && buffer[6..8] == [0, 0] => {
                Err(match self.without_traces {
                    5 => row,
                    other => Refusal::file(other, 0),
                })
            }
            Err(row) => Err(row),
            Ok(_) => unreachable!("-1 is no trace"),
        }
    }

    fn reach<'a>(&self, head: Head<'a>, trace: i64) -> Result<Reached<'a>, Refusal> {
        let no_trace = Refusal::file(18, 0);
        let k = usize::try_from(trace).map_err(|_| no_trace)?;
        if k >= head.n {
            // A slot that no trace has may stand in the pointer room all the same.
            let in_room = 32 + 4 * k + 4 <= head.room_end;
            if !self.before_8 && in_room {
                self.pointer(&head, k, trace)?;
            }
            return Err(no_trace);
        }
        let p = self.pointer(&head, k, trace)?;
        let part = (self.part)(trace);
        if let Some((row, place)) = head.block_row(p, self.samples) {
            return Err(Refusal::new(row, part, place));
        }
        if self.also == Also::FilesStrings {
            let first = head.four(32).clamp(head.room_end, head.image.len());
            told_or(RIGHT.walk(&head, -1, head.room_end..first, Sought::All))?;
        }
        let block = head.block(p);
        let at = Reached {
            area: p + 32..block.data_start() as usize,
            head,
            part,
            block,
        };
        if self.also == Also::Strings {
            RIGHT.strings(&at)?;
        }
        Ok(at)
    }

    /// Row 8.
    fn pointer(&self, head: &Head, k: usize, trace: i64) -> Result<usize, Refusal> {
        let p = head.four(32 + 4 * (self.slot)(k));
        let least = match self.least {
            Least::Room => head.room_end,
            Least::PreviousEnd => head.previous_end(k),
            Least::Head => 32,
        };
        match p % 4 != 0 || p < least || p + 32 > head.image.len() {
            true => Err(Refusal::new(8, (self.part)(trace), 32 + 4 * k)),
            false => Ok(p),
        }
    }

    /// Where the value stands, or the empty one of a no.
    fn value(&self, at: &Reached, key: &[u8]) -> Result<Range<usize>, Refusal> {
        let no = (self.no)(at.area.start);
        let found = self.seek(at, Sought::Key(key))?;
        Ok(found.map_or(no..no, |string| string.value))
    }

    /// What the value's text is read as.
    fn read<T>(
        &self,
        at: &Reached,
        key: &[u8],
        read: fn(&[u8]) -> Result<T, Refusal>,
    ) -> Result<T, Refusal> {
        let found = self.seek(at, Sought::Key(key))?;
        let start = found.as_ref().map_or(0, |string| string.value.start);
        let text = match (found, self.absent_is_empty) {
            (Some(string), _) => &at.head.image[string.value],
            (None, true) => b"",
            (None, false) => b"0",
        };
        read(text).map_err(|refusal| (self.text)(refusal, start))
    }

    fn fill_strings(&self, at: &Reached, lent: &mut Lent) -> Result<(), Refusal> {
        let lax = Way {
            judges: |_| false,
            ..*self
        };
        let size = lent.strings.size();
        let fits = |strings: &[StringPlace]| match (self.fits)(size, 4 * strings.len()) {
            true => Ok(()),
            false => Err(Refusal::file(32, 0)),
        };
        if !self.strings_first {
            fits(&lax.strings(at)?)?;
        }
        let walked = self.walk(&at.head, at.part, at.area.clone(), Sought::All);
        let numbers = walked.strings.iter().map(StringPlace::numbers);
        let numbers = numbers.flat_map(|four| (self.four)(four, at.block.p as usize));
        let numbers: Vec<usize> = numbers.collect();
        let answer = match walked.refused {
            Some(refusal) => Err(refusal),
            None => fits(&walked.strings),
        };
        self.fill(&mut lent.strings, &numbers, answer)
    }

    /// Rows 33 and 32 of samples, by whether their code is of the kind that was asked for.
    fn sample_rows(&self, at: &Reached, is_kind: bool, rows: &[usize]) -> Result<(), Refusal> {
        let count = (self.count)(&at.block);
        let fits = rows.iter().all(|&row| (self.fits)(row, count));
        let mut refusals = [(33, !is_kind), (32, !fits)];
        if !self.kind_first {
            refusals.reverse();
        }
        match refusals.into_iter().find(|row| row.1) {
            Some((number, _)) => Err(Refusal::file(number, 0)),
            None => Ok(()),
        }
    }

    /// The D bytes from where the data start, as far as the image goes.
    fn data_of<'a>(&self, at: &Reached<'a>) -> &'a [u8] {
        let start = (self.data)(&at.block);
        let end = start + at.block.d as usize;
        &at.head.image[start..end.min(at.head.image.len())]
    }

    fn integers(&self, at: &Reached, lent: &mut Lent) -> Result<(), Refusal> {
        let samples = decode_integers(at.block.code, at.head.order, self.data_of(at));
        let answer = self.sample_rows(at, samples.is_some(), &[lent.integers.size()]);
        self.fill(&mut lent.integers, &samples.unwrap_or_default(), answer)
    }

    fn bits(&self, at: &Reached, lent: &mut Lent) -> Result<(), Refusal> {
        let samples = decode_bits(at.block.code, at.head.order, self.data_of(at));
        let class_of = match at.block.code {
            4 => class_of_code_4,
            _ => class_of_code_5,
        };
        let sizes = [lent.patterns.size(), lent.classes.size()];
        let judged = if self.classes { 2 } else { 1 };
        let answer = self.sample_rows(at, samples.is_some(), &sizes[..judged]);
        let samples = samples.unwrap_or_default();
        let classes: Vec<u8> = samples.iter().map(|&bits| class_of(bits)).collect();
        self.fill(&mut lent.patterns, &samples, answer)?;
        self.fill(&mut lent.classes, &classes, answer)
    }

    /// The row filled as far as it and what stands for it go, if nothing refuses it.
    fn fill<T: Pattern>(
        &self,
        row: &mut Frame<T>,
        with: &[T],
        answer: Result<(), Refusal>,
    ) -> Result<(), Refusal> {
        let row = row.contents_mut();
        let size = row.len().min(with.len());
        let size = size.saturating_sub(usize::from(!self.whole));
        if answer.is_ok() || self.fills_first {
            row[..size].copy_from_slice(&with[..size]);
        }
        answer
    }

    fn strings(&self, at: &Reached) -> Result<Vec<StringPlace>, Refusal> {
        let walked = self.walk(&at.head, at.part, at.area.clone(), Sought::All);
        Ok(told_or(walked)?.strings)
    }

    fn seek(&self, at: &Reached, sought: Sought) -> Result<Option<StringPlace>, Refusal> {
        let walked = self.walk(&at.head, at.part, at.area.clone(), sought);
        Ok(told_or(walked)?.found)
    }

    /// The strings one by one.
    fn walk(&self, head: &Head, part: i64, area: Range<usize>, sought: Sought) -> Walked {
        let mut walked = Walked::default();
        let refused = |row: u8, at: usize| Some(Refusal::new(row, part, at));
        let (mut at, end) = (area.start, area.end);
        let mut before = None;
        while !area.is_empty() {
            if !self.end_mark && at + 2 > end {
                break;
            }
            let next = match head.next(at, end) {
                Ok(Some(next)) => next,
                Ok(None) => break,
                Err(row) => {
                    walked.refused = refused(row, at);
                    break;
                }
            };
            if !self.last && head.next(next, end) == Ok(None) {
                break;
            }
            let (keyword, value) = head.text(at, next);
            let met = &head.image[keyword.clone()];
            let turn = self.turn(met, walked.strings.len(), sought);
            let row = head.string_row(at, next, before.filter(|_| self.in_order));
            if let Some(row) = row.filter(|_| (self.judges)(turn)) {
                walked.refused = refused(row, at);
                break;
            }
            let string = StringPlace { keyword, value };
            walked.strings.push(string.clone());
            if turn == Turn::Found {
                walked.found = Some(string);
            }
            if turn == Turn::Passed || turn == Turn::Found && self.first {
                if self.one_more {
                    let row = self.row_behind(head, next..end, met);
                    walked.refused = row.and_then(|row| refused(row, next));
                }
                break;
            }
            (at, before) = (next, Some(met));
        }
        walked
    }

    fn turn(&self, met: &[u8], i: usize, sought: Sought) -> Turn {
        let (found, passed) = match sought {
            Sought::Key(key) => ((self.is)(met, key), (self.passes)(met, key)),
            Sought::Index(index) => (i == index, false),
            Sought::All => (false, false),
        };
        match (found, passed) {
            (true, _) => Turn::Found,
            (false, true) => Turn::Passed,
            (false, false) => Turn::Before,
        }
    }

    /// The row of the string behind the one that has ended the walk.
    fn row_behind(&self, head: &Head, rest: Range<usize>, before: &[u8]) -> Option<u8> {
        match head.next(rest.start, rest.end) {
            Ok(Some(next)) => head.string_row(rest.start, next, Some(before)),
            Ok(None) => None,
            Err(row) => Some(row),
        }
    }
}

/// The walk, if no row has ended it.
fn told_or(walked: Walked) -> Result<Walked, Refusal> {
    match walked.refused {
        Some(refusal) => Err(refusal),
        None => Ok(walked),
    }
}

impl Library for Way {
    fn call(&self, call: Call, length: usize, lent: &mut Lent) -> Answer {
        let name = call.name();
        let is_own = self.function.is_none_or(|function| function == name);
        match name.starts_with("quick") && is_own {
            true => told(self.answer(call, length, lent), |answer| answer),
            false => Archive.call(call, length, lent),
        }
    }
}
