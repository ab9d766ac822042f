//! The questions of one trace (document 02, §5) as one table: each with what it is lent, the
//! bytes that it looks at, and the question of the whole file beside it.

use crate::answer::Answer;
use crate::call::{keyword_questions, sample_questions, Call};
use crate::lent::Rows;
use crate::pair::{Difference, Pair};
use seg2_reference as reference;
use seg2_reference::generate::Rng;
use std::ops::Range;

/// A question of one trace, and what it is lent beside the buffer.
#[derive(Clone, Debug)]
pub struct Question {
    /// The question of the whole file, of which this is the quick form.
    pub full: Call,
    pub key: Vec<u8>,
    pub rows: Rows,
}

/// An answer, and the rows behind it.
pub type Told = (Answer, Rows);

impl Question {
    pub fn quick(&self) -> Call {
        self.full.quick().expect("a question with a quick form")
    }

    /// The bytes of the buffer that it looks at.
    pub fn read(&self, buffer: &[u8], length: usize) -> Vec<Range<usize>> {
        let question = match self.full {
            Call::TraceBlock { .. } => reference::Question::Block,
            Call::StringCount { .. } => reference::Question::Count,
            Call::String { index, .. } => reference::Question::String { index },
            Call::Strings { .. } => reference::Question::Strings {
                row: self.rows.strings.len(),
            },
            Call::Integers { .. } => reference::Question::Integers {
                row: self.rows.integers.len(),
            },
            Call::Bits { .. } => reference::Question::Bits {
                row: self.rows.patterns.len(),
                classes: self.rows.classes.len(),
            },
            _ => reference::Question::Keyword {
                key: self.key.clone(),
            },
        };
        let trace = self.full.part().expect("a question of a part");
        reference::quick_read(buffer, length, trace.into(), &question)
    }

    /// Asked quickly, alike on both sides.
    pub fn ask(&self, pair: &mut Pair, length: usize) -> Result<Told, Difference> {
        self.ask_as(self.quick(), pair, length)
    }

    /// Asked of the whole file.
    pub fn ask_full(&self, pair: &mut Pair, length: usize) -> Result<Told, Difference> {
        self.ask_as(self.full, pair, length)
    }

    fn ask_as(&self, call: Call, pair: &mut Pair, length: usize) -> Result<Told, Difference> {
        pair.lend_key(&self.key);
        pair.lend_rows(&self.rows);
        let answer = pair.ask(length, call)?;
        Ok((answer, pair.memory().rows()))
    }
}

/// Every question of a trace with so many strings and samples: with these keys, every index
/// and one past the last, and rows of the right length and of others.
pub fn questions(
    rng: &mut Rng,
    trace: i32,
    keys: &[&[u8]],
    strings: usize,
    samples: usize,
) -> Vec<Question> {
    let part = trace;
    let question = |full: Call, key: &[u8], rows: Rows| Question {
        full,
        key: key.to_vec(),
        rows,
    };
    let none = Rows::default;
    let mut all = vec![
        question(Call::TraceBlock { trace }, b"", none()),
        question(Call::StringCount { part }, b"", none()),
    ];
    for index in (0..=strings).chain([usize::MAX]) {
        all.push(question(Call::String { part, index }, b"", none()));
    }
    for row in [4 * strings, 4 * strings + 1, strings] {
        let rows = Rows::junk(rng, 0, 0, row);
        all.push(question(Call::Strings { part }, b"", rows));
    }
    for key in keys {
        all.extend(keyword_questions(part).map(|call| question(call, key, none())));
    }
    for (row, classes) in [(samples, samples), (samples + 1, samples)] {
        let rows = Rows::junk(rng, row, classes, 0);
        all.extend(sample_questions(trace).map(|call| question(call, b"", rows.clone())));
    }
    let rows = Rows::junk(rng, samples, samples + 1, 0);
    all.push(question(Call::Bits { trace }, b"", rows));
    all
}
