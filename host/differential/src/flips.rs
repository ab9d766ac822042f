//! The bytes that a question of one trace looks at (document 02, §5), tried out: a byte
//! beside them changes no answer and no lent row, whatever it becomes.

use crate::call::Library;
use crate::pair::{Difference, Pair};
use crate::questions::{Question, Told};
use seg2_reference::generate::Rng;

/// What each byte is changed by, one after the other.
const MASKS: [u8; 2] = [0xFF, 0x01];

/// Questions of one trace of a file.
#[derive(Clone, Copy, Debug)]
pub struct Trial<'a> {
    pub buffer: &'a [u8],
    pub length: usize,
    pub questions: &'a [Question],
}

/// How many bytes were changed.
#[derive(Clone, Copy, Debug, Default, PartialEq, Eq)]
pub struct Flips {
    /// Beside what is read, within the image.
    pub beside: u64,
    /// Behind the image.
    pub behind: u64,
    /// Of what is read.
    pub read: u64,
    /// Of these, with another answer.
    pub telling: u64,
}

impl Flips {
    pub fn add(&mut self, other: &Flips) {
        self.beside += other.beside;
        self.behind += other.behind;
        self.read += other.read;
        self.telling += other.telling;
    }
}

/// A question with its answer on the file as it is.
struct Asked<'a> {
    question: &'a Question,
    /// For each byte of the buffer, whether the question looks at it.
    looks_at: Vec<bool>,
    told: Told,
}

impl Asked<'_> {
    /// It has to answer as before.
    fn ask_again(&self, pair: &mut Pair, length: usize, changed: &str) -> Result<(), Difference> {
        let told = self.question.ask(pair, length)?;
        if told == self.told {
            return Ok(());
        }
        let what = format!("{told:?} for {:?}, {changed}", self.told);
        Err(pair.differs(length, self.question.quick(), what))
    }
}

impl<'a> Trial<'a> {
    /// Each question on the file as it is.
    fn asked(&self, pair: &mut Pair) -> Result<Vec<Asked<'a>>, Difference> {
        let ask = |question: &'a Question| {
            let mut looks_at = vec![false; self.buffer.len()];
            for part in question.read(self.buffer, self.length) {
                looks_at[part].fill(true);
            }
            Ok(Asked {
                question,
                looks_at,
                told: question.ask(pair, self.length)?,
            })
        };
        self.questions.iter().map(ask).collect()
    }

    fn pair<'b>(&self, library: &'b dyn Library) -> Pair<'b> {
        Pair::new(library, self.length as u64, self.buffer)
    }

    /// Each byte of the buffer changed, one at a time: beside what is read no answer
    /// changes, and of what is read archive and reference go on alike. Answers the bytes
    /// changed for each question.
    pub fn each_byte(&self, library: &dyn Library) -> Result<Vec<Flips>, Difference> {
        let mut pair = self.pair(library);
        let asked = self.asked(&mut pair)?;
        let mut flips = vec![Flips::default(); asked.len()];
        let mut bytes = self.buffer.to_vec();
        for at in 0..bytes.len() {
            for mask in MASKS {
                bytes[at] ^= mask;
                pair.lend_buffer(&bytes);
                bytes[at] ^= mask;
                for (asked, flips) in asked.iter().zip(&mut flips) {
                    if asked.looks_at[at] {
                        let told = asked.question.ask(&mut pair, self.length)?;
                        flips.read += 1;
                        flips.telling += u64::from(told != asked.told);
                        continue;
                    }
                    asked.ask_again(&mut pair, self.length, &format!("byte {at} changed"))?;
                    match at < self.length {
                        true => flips.beside += 1,
                        false => flips.behind += 1,
                    }
                }
            }
        }
        Ok(flips)
    }

    /// All bytes beside what a question reads changed at once: each by a mask, and to junk.
    /// Answers how many there are, for each question.
    pub fn all_bytes(
        &self,
        library: &dyn Library,
        rng: &mut Rng,
    ) -> Result<Vec<usize>, Difference> {
        let mut pair = self.pair(library);
        let asked = self.asked(&mut pair)?;
        let masks = MASKS.map(|mask| vec![mask; self.buffer.len()]);
        let junk: Vec<u8> = self.buffer.iter().map(|_| rng.byte()).collect();
        let masks: Vec<Vec<u8>> = masks.into_iter().chain([junk]).collect();
        let mut counts = Vec::new();
        for asked in &asked {
            for masks in &masks {
                let beside = masks.iter().zip(&asked.looks_at);
                let changed = beside
                    .zip(self.buffer)
                    .map(|((mask, read), byte)| match read {
                        true => *byte,
                        false => byte ^ mask,
                    });
                pair.lend_buffer(&changed.collect::<Vec<u8>>());
                asked.ask_again(&mut pair, self.length, "all other bytes changed")?;
            }
            counts.push(asked.looks_at.iter().filter(|read| !**read).count());
        }
        Ok(counts)
    }
}
