//! Cases: all that a run of calls depends on, and how one is run.

use crate::asking::{ask_all, ask_forms, ask_part};
use crate::call::{Call, Forged, Library};
use crate::growing::{add, grow, start};
use crate::numbering::{type_in, write_in_rooms};
use crate::pair::{Difference, Pair, Tally};
use seg2_reference as reference;
use seg2_reference::generate::Rng;
use seg2_reference::Row;

/// What a start is given.
#[derive(Clone, Debug, PartialEq, Eq)]
pub struct Start {
    pub order: u32,
    pub slots: u32,
    pub sheet: Vec<u8>,
}

/// A trace as it is given to an addition. The code is as wide as the archive takes it.
#[derive(Clone, Debug, PartialEq, Eq)]
pub struct Given {
    pub sheet: Vec<u8>,
    pub code: u32,
    pub row: Row,
}

/// Where a growing file begins.
#[derive(Clone, Debug, PartialEq, Eq)]
pub enum Base {
    Start(Start),
    /// A file or an image without traces, of any maker.
    Image {
        image: Vec<u8>,
    },
}

/// The seed chooses what stands around lent memory, what rows hold before a call, and
/// what is asked for where there is much of it.
#[derive(Clone, Debug, PartialEq, Eq)]
pub struct Case {
    pub seed: u64,
    pub kind: Kind,
}

#[derive(Clone, Debug, PartialEq, Eq)]
pub enum Kind {
    /// Every question about a buffer.
    Asked { buffer: Vec<u8>, length: usize },
    /// A start in a buffer with something in it.
    Started { buffer: Vec<u8>, given: Start },
    /// One addition, and every question about what it has made.
    Added {
        buffer: Vec<u8>,
        length: usize,
        given: Given,
    },
    /// A list of additions in a buffer of so many bytes.
    Grown {
        base: Base,
        room: usize,
        steps: Vec<Given>,
    },
    /// A text that is read as a number, and what was read written back.
    Typed { text: Vec<u8> },
    /// A number that is written, in every room.
    Forged { number: Forged },
}

impl Case {
    /// All calls of the case on both sides.
    pub fn compare(&self, library: &dyn Library) -> Result<Tally, Difference> {
        let mut rng = Rng::new(self.seed);
        let seed = rng.bits();
        let mut pair;
        match &self.kind {
            Kind::Asked { buffer, length } => {
                pair = Pair::new(library, seed, buffer);
                ask_all(&mut pair, *length, &mut rng)?;
            }
            Kind::Started { buffer, given } => {
                pair = Pair::new(library, seed, buffer);
                let answer = start(&mut pair, given)?;
                if answer.number == 0 {
                    pair.ask(answer.values[0] as usize, Call::Check)?;
                }
            }
            Kind::Added {
                buffer,
                length,
                given,
            } => {
                pair = Pair::new(library, seed, buffer);
                let (answer, _) = add(&mut pair, *length, given)?;
                if answer.number == 0 {
                    ask_last(&mut pair, answer.values[0] as usize, &mut rng)?;
                }
            }
            Kind::Grown { base, room, steps } => {
                let mut buffer = match base {
                    Base::Start(_) => Vec::new(),
                    Base::Image { image } => image.clone(),
                };
                buffer.extend(rng.junk(room.saturating_sub(buffer.len())));
                pair = Pair::new(library, seed, &buffer);
                grow(&mut pair, base, steps, &mut rng)?;
            }
            Kind::Typed { text } => {
                pair = Pair::new(library, seed, &[]);
                type_in(&mut pair, text, &mut rng)?;
            }
            Kind::Forged { number } => {
                pair = Pair::new(library, seed, &[]);
                write_in_rooms(&mut pair, *number, &mut rng)?;
            }
        }
        Ok(pair.tally)
    }
}

/// Every question about the last trace and its file.
fn ask_last(pair: &mut Pair, length: usize, rng: &mut Rng) -> Result<(), Difference> {
    ask_forms(pair, length, Call::Check)?;
    ask_forms(pair, length, Call::FileBlock)?;
    let Ok(file) = reference::check(&pair.memory().buffer, length) else {
        return Ok(());
    };
    let Some(last) = file.traces.last() else {
        return Ok(());
    };
    let part = i32::from(file.n) - 1;
    ask_part(pair, length, part, &last.strings, last.s as usize, rng)
}
