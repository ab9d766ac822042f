//! Questions about samples with their answers (rows 18, 33, 32), an input of row
//! 19, and mutated files without an answer.

use super::expected::{first_of, when};
use super::lay::Laid;
use super::model::{Model, SamplesModel};
use super::rng::Rng;
use crate::refusal::Refusal;

/// A valid file with random changes; nothing is known about it.
pub fn mutated(rng: &mut Rng) -> (Vec<u8>, usize) {
    let laid = Model::random(rng).lay();
    mutated_laid(rng, laid)
}

/// The given file with random changes.
pub(super) fn mutated_laid(rng: &mut Rng, laid: Laid) -> (Vec<u8>, usize) {
    let Laid {
        mut buffer,
        mut length,
        ..
    } = laid;
    for _ in 0..rng.between(1, 5) {
        let at = rng.between(0, buffer.len() - 1);
        // Most often in the fixed part, the pointers and the first strings.
        let at = if rng.one_in(2) { at % 64 } else { at };
        match rng.between(0, 6) {
            0 => buffer[at] = rng.byte(),
            1 => buffer[at] ^= 1 << rng.between(0, 7),
            2 => buffer[at] = buffer[at].wrapping_add(rng.pick(&[1, 4, 252, 255])),
            3 => length = rng.between(0, buffer.len()),
            4 => buffer.insert(at, rng.byte()),
            5 if buffer.len() > 1 => drop(buffer.remove(at)),
            _ => length = length.wrapping_add(rng.between(0, 8)).saturating_sub(4),
        }
    }
    (buffer, length)
}

/// An input of more than 65,536 bytes, for row 19. It starts as a valid file.
pub fn too_long_for_listing(rng: &mut Rng) -> Vec<u8> {
    let Laid { mut buffer, .. } = Model::random(rng).lay();
    let excess = rng.pick(&[1, 2, 1000]);
    buffer.resize(65_536 + excess, 0);
    buffer
}

/// A samples question. The row of integers, or of bits, has `row` elements.
#[derive(Clone, Debug)]
pub struct SampleCase {
    pub buffer: Vec<u8>,
    pub length: usize,
    pub trace: i64,
    pub question: SampleQuestion,
}

/// Which samples question is asked, and its answer.
#[derive(Clone, Debug)]
pub enum SampleQuestion {
    Integers {
        row: usize,
        expected: Result<Vec<i32>, Refusal>,
    },
    Bits {
        row: usize,
        classes: usize,
        expected: Result<(Vec<u64>, Vec<u8>), Refusal>,
    },
}

pub fn sample_case(rng: &mut Rng) -> SampleCase {
    let model = Model::random(rng);
    let laid = model.lay();
    let trace = some_index(rng, model.traces.len());
    let samples = usize::try_from(trace)
        .ok()
        .and_then(|k| model.traces.get(k))
        .map(|t| &t.samples);
    let question = if rng.one_in(2) {
        integers_question(rng, samples)
    } else {
        bits_question(rng, samples)
    };
    SampleCase {
        buffer: laid.buffer,
        length: laid.length,
        trace,
        question,
    }
}

/// Most often a trace that there is.
pub(super) fn some_index(rng: &mut Rng, count: usize) -> i64 {
    let n = count as i64;
    let outside = rng.pick(&[-1, -2, n, n + 1, 1 << 32, i64::MIN, i64::MAX]);
    let inside = rng.between(0, count - 1) as i64;
    if rng.one_in(6) {
        outside
    } else {
        inside
    }
}

/// Rows 18, 33, 32 in that order; without samples there is no such trace.
fn integers_question(rng: &mut Rng, samples: Option<&SamplesModel>) -> SampleQuestion {
    let count = samples.map_or(3, |s| s.count());
    let row = some_length(rng, count);
    let integers = samples.and_then(|s| s.integers());
    let refusals = [
        when(samples.is_none(), 18),
        when(integers.is_none(), 33),
        when(row != count, 32),
    ];
    SampleQuestion::Integers {
        row,
        expected: first_of(&refusals, integers.unwrap_or_default()),
    }
}

fn bits_question(rng: &mut Rng, samples: Option<&SamplesModel>) -> SampleQuestion {
    let count = samples.map_or(3, |s| s.count());
    let row = some_length(rng, count);
    let classes = some_length(rng, count);
    let bits = samples.and_then(|s| s.bits());
    let refusals = [
        when(samples.is_none(), 18),
        when(bits.is_none(), 33),
        when(row != count || classes != count, 32),
    ];
    SampleQuestion::Bits {
        row,
        classes,
        expected: first_of(&refusals, bits.unwrap_or_default()),
    }
}

/// Most often the right length.
pub(super) fn some_length(rng: &mut Rng, count: usize) -> usize {
    let wrong = rng.pick(&[count + 1, count.saturating_sub(1)]);
    rng.pick(&[count, count, wrong])
}
