//! The archive and the reference beside each other, on the same memory.

use crate::answer::Answer;
use crate::call::{Call, Library};
use crate::expected::Known;
use crate::lent::{Lent, Memory, Rows};
use seg2_reference::ALL;
use std::fmt;

/// One place for each number up to the table's last.
const PLACES: usize = ALL[ALL.len() - 1] as usize + 1;

/// How often each refusal was met through the archive; row 0 counts acceptances.
#[derive(Clone, Debug, PartialEq, Eq)]
pub struct Tally {
    pub calls: u64,
    pub met: [u64; PLACES],
}

impl Default for Tally {
    fn default() -> Tally {
        Tally {
            calls: 0,
            met: [0; PLACES],
        }
    }
}

impl Tally {
    fn count(&mut self, number: u32) {
        self.calls += 1;
        if let Some(met) = self.met.get_mut(number as usize) {
            *met += 1;
        }
    }

    pub fn add(&mut self, other: &Tally) {
        self.calls += other.calls;
        for (met, more) in self.met.iter_mut().zip(&other.met) {
            *met += more;
        }
    }

    /// The refusal numbers that were met.
    pub fn numbers(&self) -> Vec<usize> {
        (1..self.met.len()).filter(|&n| self.met[n] > 0).collect()
    }
}

/// Where archive and reference are not alike.
#[derive(Clone, Debug, PartialEq, Eq)]
pub struct Difference {
    pub call: Call,
    pub length: usize,
    /// The keyword that was lent last.
    pub key: Vec<u8>,
    pub what: String,
}

impl fmt::Display for Difference {
    fn fmt(&self, out: &mut fmt::Formatter<'_>) -> fmt::Result {
        let key = self.key.escape_ascii();
        let (call, length, what) = (self.call, self.length, &self.what);
        write!(out, "{call:?}, length {length}, keyword \"{key}\": {what}")
    }
}

/// Both with the same lent memory.
pub struct Pair<'a> {
    library: &'a dyn Library,
    lent: Lent,
    memory: Memory,
    /// What the reference has said of the buffer.
    known: Known,
    pub tally: Tally,
}

impl<'a> Pair<'a> {
    /// The seed chooses what stands around lent memory and where bytes start.
    pub fn new(library: &'a dyn Library, seed: u64, buffer: &[u8]) -> Pair<'a> {
        let mut pair = Pair {
            library,
            lent: Lent::new(seed),
            memory: Memory::default(),
            known: Known::default(),
            tally: Tally::default(),
        };
        pair.lend_buffer(buffer);
        pair
    }

    pub fn lend_buffer(&mut self, buffer: &[u8]) {
        self.known = Known::default();
        self.memory.buffer = buffer.to_vec();
        self.lent.buffer.lend(buffer);
    }

    pub fn lend_key(&mut self, key: &[u8]) {
        self.memory.key = key.to_vec();
        self.lent.key.lend(key);
    }

    pub fn lend_sheet(&mut self, sheet: &[u8]) {
        self.memory.sheet = sheet.to_vec();
        self.lent.sheet.lend(sheet);
    }

    pub fn lend_integers(&mut self, row: &[i32]) {
        self.memory.integers = row.to_vec();
        self.lent.integers.lend(row);
    }

    pub fn lend_patterns(&mut self, row: &[u64]) {
        self.memory.patterns = row.to_vec();
        self.lent.patterns.lend(row);
    }

    pub fn lend_classes(&mut self, row: &[u8]) {
        self.memory.classes = row.to_vec();
        self.lent.classes.lend(row);
    }

    pub fn lend_strings(&mut self, row: &[usize]) {
        self.memory.strings = row.to_vec();
        self.lent.strings.lend(row);
    }

    /// Every row that a question fills.
    pub fn lend_rows(&mut self, rows: &Rows) {
        self.lend_integers(&rows.integers);
        self.lend_patterns(&rows.patterns);
        self.lend_classes(&rows.classes);
        self.lend_strings(&rows.strings);
    }

    pub fn lend_text(&mut self, text: &[u8]) {
        self.memory.text = text.to_vec();
        self.lent.text.lend(text);
    }

    /// The lent memory after the last call, the same on both sides.
    pub fn memory(&self) -> &Memory {
        &self.memory
    }

    /// One call on both sides: answers, all lent memory and what is around it have to
    /// be alike.
    pub fn ask(&mut self, length: usize, call: Call) -> Result<Answer, Difference> {
        let expected = self.known.expected(call, length, &mut self.memory);
        let answer = self.library.call(call, length, &mut self.lent);
        self.tally.count(answer.number);
        if answer != expected {
            let what = format!("archive {answer:?}, reference {expected:?}");
            return Err(self.differs(length, call, what));
        }
        match self.lent.fault(&self.memory) {
            Some(what) => Err(self.differs(length, call, what)),
            None => Ok(answer),
        }
    }

    /// A difference that this call shows.
    pub fn differs(&self, length: usize, call: Call, what: String) -> Difference {
        Difference {
            call,
            length,
            key: self.memory.key.clone(),
            what,
        }
    }
}
