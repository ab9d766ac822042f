//! Questions of one trace (document 02, §5) with their answers and the bytes that they look
//! at, told by the layout: of files that keep the rules, of files that break one where the
//! question looks or where it does not, and of files whose pointers lead elsewhere.

use super::asking::{some_index, some_length};
use super::damage::{damaged_laid, Scope, Way};
use super::expected::{first_of, when};
use super::lay::{four, Laid};
use super::model::{Model, SamplesModel, StringModel};
use super::rng::Rng;
use super::ways::WAYS;
use crate::check::Trace;
use crate::quick::Question;
use crate::refusal::Refusal;
use crate::strings::StringPlace;
use crate::words::Order;
use std::ops::Range;

/// Questions of one trace of a file.
#[derive(Clone, Debug)]
pub struct QuickCase {
    /// What was done to the file.
    pub name: &'static str,
    pub buffer: Vec<u8>,
    pub length: usize,
    pub trace: i64,
    pub asked: Vec<QuickAsked>,
}

/// A question with its answer.
#[derive(Clone, Debug)]
pub struct QuickAsked {
    pub question: Question,
    pub expected: Result<QuickTold, Refusal>,
    /// The bytes that the question looks at.
    pub read: Vec<Range<usize>>,
}

/// What a question is told, with what its rows hold then.
#[derive(Clone, Debug, PartialEq, Eq)]
pub enum QuickTold {
    /// Without strings.
    Block(Trace),
    Count(usize),
    String(Option<StringPlace>),
    Strings(Vec<usize>),
    /// Where the value stands, `None` for a no.
    Keyword(Option<Range<usize>>),
    Integers(Vec<i32>),
    Bits(Vec<u64>, Vec<u8>),
}

/// A laid file with what was done to it.
struct Broken {
    name: &'static str,
    laid: Laid,
    /// The samples of each trace.
    samples: Vec<SamplesModel>,
    /// The row that the layout breaks, where it breaks one.
    row: Option<Refusal>,
}

pub fn quick_case(rng: &mut Rng) -> QuickCase {
    loop {
        let model = quick_model(rng);
        let broken = match rng.between(0, 5) {
            0 => Some(Broken::new("a file", &model, model.lay())),
            1 => moved_pointer(rng, model),
            2 => long_data(rng, model),
            _ => {
                let way = rng.between(0, WAYS.len() - 1);
                damaged_by(rng, &WAYS[way], model)
            }
        };
        let case = broken.and_then(|broken| asked(rng, broken));
        if let Some(mut case) = case {
            if rng.one_in(4) {
                veil(rng, &mut case);
            }
            return case;
        }
    }
}

impl Broken {
    /// A file that breaks no row, or none that a question of one trace knows.
    fn new(name: &'static str, model: &Model, laid: Laid) -> Broken {
        Broken {
            name,
            laid,
            samples: model.traces.iter().map(|t| t.samples.clone()).collect(),
            row: None,
        }
    }
}

/// Some file; half of the time a trace that has strings is given a NOTE behind them.
fn quick_model(rng: &mut Rng) -> Model {
    let mut model = Model::random(rng);
    if rng.one_in(2) {
        let k = rng.between(0, model.traces.len() - 1);
        let strings = &mut model.traces[k].area.strings;
        if strings.last().is_some_and(|s| s.keyword != b"NOTE") {
            let lines = vec![b"a".to_vec(), b"b".to_vec()];
            strings.push(StringModel::note(rng, lines));
        }
    }
    model
}

fn damaged_by(rng: &mut Rng, way: &Way, mut model: Model) -> Option<Broken> {
    if way.scope == Scope::Image {
        return None;
    }
    let (laid, row) = damaged_laid(rng, way, &mut model)?;
    let mut broken = Broken::new(way.name, &model, laid);
    broken.row = Some(row);
    Some(broken)
}

/// Two pointers exchanged, or a second one to a trace: no pointer of a file does either.
fn moved_pointer(rng: &mut Rng, model: Model) -> Option<Broken> {
    let mut laid = model.lay();
    let last = laid.file.traces.len() - 1;
    let (a, b) = (rng.between(0, last), rng.between(0, last));
    let [to_a, to_b] = [a, b].map(|k| laid.file.traces[k].p);
    put_pointer(&mut laid, a, to_b);
    if rng.one_in(2) {
        put_pointer(&mut laid, b, to_a);
    }
    let name = "pointers in another order";
    (a != b).then(|| Broken::new(name, &model, laid))
}

fn put_pointer(laid: &mut Laid, k: usize, p: u32) {
    let slot = 32 + 4 * k;
    laid.buffer[slot..slot + 4].copy_from_slice(&four(p, laid.file.order));
}

/// A trace's data reach over the traces behind it, which lie in its data then.
fn long_data(rng: &mut Rng, model: Model) -> Option<Broken> {
    let mut laid = model.lay();
    let last = laid.file.traces.len().checked_sub(2)?;
    let trace = &mut laid.file.traces[rng.between(0, last)];
    let most = (laid.length as u64 - trace.end()) / 4;
    trace.d += 4 * rng.between(1, most as usize) as u32;
    let (at, d) = (trace.p as usize + 4, four(trace.d, laid.file.order));
    laid.buffer[at..at + 4].copy_from_slice(&d);
    let name = "data that reach over other traces";
    Some(Broken::new(name, &model, laid))
}

/// Questions of the file; `None` where its pointer leads to no trace of the layout and is
/// good all the same.
fn asked(rng: &mut Rng, broken: Broken) -> Option<QuickCase> {
    let count = broken.laid.file.traces.len();
    let trace = some_index(rng, count);
    let part = trace.clamp(0, count as i64 - 1);
    let mut asked = Vec::new();
    for question in questions(rng, &broken, part) {
        let mut seen = Seen {
            broken: &broken,
            read: Vec::new(),
        };
        let expected = seen.answer(trace, &question)?;
        asked.push(QuickAsked {
            question,
            expected,
            read: seen.read,
        });
    }
    Some(QuickCase {
        name: broken.name,
        buffer: broken.laid.buffer,
        length: broken.laid.length,
        trace,
        asked,
    })
}

/// Each question once, a keyword's first; indices and rows most often such as are there for
/// this trace.
fn questions(rng: &mut Rng, broken: &Broken, part: i64) -> Vec<Question> {
    let key = quick_key(rng, &keywords(&broken.laid, part));
    let strings = broken.laid.strings(part).len();
    let last = strings.saturating_sub(1);
    let within = rng.between(0, last);
    let index = rng.pick(&[0, within, within, last, strings, strings + 1, usize::MAX]);
    let four = 4 * strings;
    let row = some_length(rng, four);
    let row = rng.pick(&[four, row, row, strings, four + 4]);
    let samples = broken.samples[part as usize].count();
    vec![
        Question::Keyword { key },
        Question::Block,
        Question::Count,
        Question::String { index },
        Question::Strings { row },
        Question::Integers {
            row: some_length(rng, samples),
        },
        Question::Bits {
            row: some_length(rng, samples),
            classes: some_length(rng, samples),
        },
    ]
}

fn keywords(laid: &Laid, part: i64) -> Vec<Vec<u8>> {
    let word = |s: &StringPlace| laid.buffer[s.keyword.clone()].to_vec();
    laid.strings(part).iter().map(word).collect()
}

const BEFORE_ALL: [&[u8]; 4] = [b"", b"\0", b" ", b"!"];
const BEHIND_ALL: [&[u8]; 4] = [b"ZZZZ", b"~~~~", b"\x7F", b"\xFF\xFF"];
const NEAR_NOTE: [&[u8]; 4] = [b"NOT", b"NOTE ", b"NOTES", b"note"];

/// A key among these keywords: one of them, before, between or behind them, NOTE, or one
/// that can be no keyword.
pub fn quick_key(rng: &mut Rng, keywords: &[Vec<u8>]) -> Vec<u8> {
    let mut key = match keywords.is_empty() {
        true => b"STACK".to_vec(),
        false => rng.pick(keywords),
    };
    let last = key.len().saturating_sub(1);
    match rng.between(0, 13) {
        0..=4 => {}
        // A prefix stands before, a longer one behind it.
        5 => key.truncate(last),
        6 => key.push(rng.pick(b"!A~ \t\0\xFF")),
        7 => key.iter_mut().for_each(|c| c.make_ascii_lowercase()),
        8 if !key.is_empty() => key[last] = key[last].wrapping_sub(1),
        9 if !key.is_empty() => key[last] = key[last].wrapping_add(1),
        10 => key = rng.pick(&BEFORE_ALL).to_vec(),
        11 => key = rng.pick(&BEHIND_ALL).to_vec(),
        12 => key = rng.pick(&NEAR_NOTE).to_vec(),
        _ => key = b"NOTE".to_vec(),
    }
    key
}

/// A question on its way through a layout: what was looked at.
struct Seen<'a> {
    broken: &'a Broken,
    read: Vec<Range<usize>>,
}

/// A question's answer.
type Told = Result<QuickTold, Refusal>;

impl<'a> Seen<'a> {
    /// The row that is broken, if it is this part's and one of these numbers.
    fn broken(&self, part: i64, numbers: Range<u8>) -> Option<Refusal> {
        let is_it = |r: &Refusal| r.part == part && numbers.contains(&r.number);
        self.broken.row.filter(is_it)
    }

    fn answer(&mut self, trace: i64, question: &Question) -> Option<Told> {
        let laid = &self.broken.laid;
        let first = self.broken(-1, 1..8);
        if first.is_none_or(|row| row.number != 1) {
            self.read.push(0..32);
        }
        if let Some(row) = first {
            return Some(Err(row));
        }
        let k = match usize::try_from(trace) {
            Ok(k) if k < laid.file.traces.len() => k,
            _ => return Some(Err(Refusal::file(18, 0))),
        };
        let slot = 32 + 4 * k;
        self.read.push(slot..slot + 4);
        let p = self.pointer(slot);
        if p % 4 != 0 || p < 32 + usize::from(laid.file.m) || p + 32 > laid.length {
            return Some(Err(Refusal::new(8, trace, slot)));
        }
        let j = laid.file.traces.iter().position(|t| t.p as usize == p)?;
        Some(self.of_block(trace, j, question))
    }

    /// Where a slot leads.
    fn pointer(&self, slot: usize) -> usize {
        let laid = &self.broken.laid;
        let mut bytes: [u8; 4] = laid.buffer[slot..slot + 4].try_into().expect("four");
        if laid.file.order == Order::High {
            bytes.reverse();
        }
        u32::from_le_bytes(bytes) as usize
    }

    /// The answer out of trace j's block, told as the asked trace's.
    fn of_block(&mut self, trace: i64, j: usize, question: &Question) -> Told {
        let block = &self.broken.laid.file.traces[j];
        let p = block.p as usize;
        self.read.push(p..p + 32);
        if let Some(row) = self.broken(j as i64, 9..14) {
            return Err(Refusal { part: trace, ..row });
        }
        match question {
            Question::Block => Ok(QuickTold::Block(Trace {
                strings: Vec::new(),
                ..block.clone()
            })),
            Question::Count => {
                let strings = self.strings(trace, j, |_, _| false)?;
                Ok(QuickTold::Count(strings.len()))
            }
            Question::String { index } => {
                let strings = self.strings(trace, j, |i, _| i == *index)?;
                Ok(QuickTold::String(strings.get(*index).cloned()))
            }
            Question::Strings { row } => {
                let strings = self.strings(trace, j, |_, _| false)?;
                let numbers = strings.iter().flat_map(|StringPlace { keyword, value }| {
                    [keyword.start, keyword.len(), value.start, value.len()]
                });
                let refusals = [when(*row != 4 * strings.len(), 32)];
                first_of(&refusals, QuickTold::Strings(numbers.collect()))
            }
            Question::Keyword { key } => {
                // "NOTE is sought to the end", and stands behind all others.
                let ends = |word: &[u8]| {
                    let behind = word == b"NOTE" || word > &key[..];
                    word == key || key != b"NOTE" && behind
                };
                let strings = self.strings(trace, j, |_, word| ends(word))?;
                let buffer = &self.broken.laid.buffer;
                let is_it = |s: &&StringPlace| buffer[s.keyword.clone()] == key[..];
                let found = strings.last().filter(is_it).map(|s| s.value.clone());
                Ok(QuickTold::Keyword(found))
            }
            Question::Integers { row } => {
                let samples = &self.broken.samples[j];
                let integers = samples.integers();
                let refusals = [
                    when(integers.is_none(), 33),
                    when(*row != samples.count(), 32),
                ];
                let told = QuickTold::Integers(integers.unwrap_or_default());
                self.data(j, first_of(&refusals, told))
            }
            Question::Bits { row, classes } => {
                let samples = &self.broken.samples[j];
                let (count, bits) = (samples.count(), samples.bits());
                let refusals = [
                    when(bits.is_none(), 33),
                    when(*row != count || *classes != count, 32),
                ];
                let (patterns, classes) = bits.unwrap_or_default();
                let told = QuickTold::Bits(patterns, classes);
                self.data(j, first_of(&refusals, told))
            }
        }
    }

    /// The strings that are read whole, until one ends the walk by its index and keyword, or
    /// none is left.
    fn strings(
        &mut self,
        trace: i64,
        j: usize,
        ends: impl Fn(usize, &[u8]) -> bool,
    ) -> Result<&'a [StringPlace], Refusal> {
        let laid = &self.broken.laid;
        let told = |row: Refusal| Err(Refusal { part: trace, ..row });
        let j = j as i64;
        let row = self.broken(j, 14..18);
        let mut at = laid.area(j).start;
        let strings = laid.strings(j);
        for (i, string) in strings.iter().enumerate() {
            let next = string.value.end + laid.file.string_terminator.len();
            let broken = row.filter(|row| row.place == at as u64);
            // An offset that is bad is read alone.
            let end = match broken.is_some_and(|row| row.number == 14) {
                true => at + 2,
                false => next,
            };
            self.read.push(at..end);
            if let Some(row) = broken {
                return told(row);
            }
            if ends(i, &laid.buffer[string.keyword.clone()]) {
                return Ok(&strings[..=i]);
            }
            at = next;
        }
        // The end mark, or what stands in its place.
        if at + 2 <= laid.area(j).end {
            self.read.push(at..at + 2);
        }
        row.map_or(Ok(strings), told)
    }

    /// The data are looked at where samples are answered.
    fn data(&mut self, j: usize, told: Told) -> Told {
        let Trace { p, b, d, .. } = self.broken.laid.file.traces[j];
        let start = p as usize + usize::from(b);
        if told.is_ok() && d > 0 {
            self.read.push(start..start + d as usize);
        }
        told
    }
}

/// One question is left, half of the time the keyword's, and everything that it does not look
/// at becomes junk, the bytes behind the image too: the answer stays.
fn veil(rng: &mut Rng, case: &mut QuickCase) {
    let any = rng.between(0, case.asked.len() - 1);
    let kept = case.asked.swap_remove(rng.pick(&[0, any]));
    let mut veiled = rng.junk(case.buffer.len());
    for part in &kept.read {
        veiled[part.clone()].copy_from_slice(&case.buffer[part.clone()]);
    }
    case.name = "junk beside what is read";
    case.buffer = veiled;
    case.asked = vec![kept];
}
