//! A smaller case that still shows a difference.

use crate::call::{Forged, Library};
use crate::case::{Base, Case, Given, Kind, Start};
use seg2_reference::Row;
use std::time::{Duration, Instant};

/// Takes bytes, samples, lines and traces away and sets bytes to zero as long as a
/// difference stays, for so long at most.
pub fn shrunk(case: &Case, library: &dyn Library, most: Duration) -> Case {
    let began = Instant::now();
    let differs = |case: &Case| case.compare(library).is_err();
    let mut best = case.clone();
    loop {
        let smaller = candidates(&best)
            .into_iter()
            .take_while(|_| began.elapsed() < most)
            .find(differs);
        match smaller {
            Some(case) => best = case,
            None => return best,
        }
    }
}

/// Simpler cases, the boldest first. Each has less in it than the case, so there is an
/// end.
fn candidates(case: &Case) -> Vec<Case> {
    let kinds = match &case.kind {
        Kind::Asked { buffer, length } => file_candidates(buffer, *length, |buffer, length| {
            Kind::Asked { buffer, length }
        }),
        Kind::Started { buffer, given } => started_candidates(buffer, given),
        Kind::Added {
            buffer,
            length,
            given,
        } => added_candidates(buffer, *length, given),
        Kind::Grown { base, room, steps } => grown_candidates(base, *room, steps),
        Kind::Typed { text } => {
            let texts = simpler(text).into_iter();
            texts.map(|text| Kind::Typed { text }).collect()
        }
        Kind::Forged { number } => forged_candidates(number),
    };
    let seed = case.seed;
    kinds.into_iter().map(|kind| Case { seed, kind }).collect()
}

fn started_candidates(buffer: &[u8], given: &Start) -> Vec<Kind> {
    let starts = start_candidates(given)
        .into_iter()
        .map(|given| Kind::Started {
            buffer: buffer.to_vec(),
            given,
        });
    let buffers = simpler(buffer).into_iter().map(|buffer| Kind::Started {
        buffer,
        given: given.clone(),
    });
    starts.chain(buffers).collect()
}

fn added_candidates(buffer: &[u8], length: usize, given: &Given) -> Vec<Kind> {
    let traces = given_candidates(given)
        .into_iter()
        .map(|given| Kind::Added {
            buffer: buffer.to_vec(),
            length,
            given,
        });
    let files = file_candidates(buffer, length, |buffer, length| Kind::Added {
        buffer,
        length,
        given: given.clone(),
    });
    traces.chain(files).collect()
}

/// Steps away, then each step simpler, then the base, then the room.
fn grown_candidates(base: &Base, room: usize, steps: &[Given]) -> Vec<Kind> {
    let with = |base: &Base, room: usize, steps: Vec<Given>| Kind::Grown {
        base: base.clone(),
        room,
        steps,
    };
    let mut kinds: Vec<Kind> = parts_away(steps)
        .into_iter()
        .map(|steps| with(base, room, steps))
        .collect();
    for (i, step) in steps.iter().enumerate() {
        for smaller in given_candidates(step) {
            let mut steps = steps.to_vec();
            steps[i] = smaller;
            kinds.push(with(base, room, steps));
        }
    }
    for base in base_candidates(base) {
        kinds.push(with(&base, room, steps.to_vec()));
    }
    for less in [room / 2, room.saturating_sub(1)] {
        if less < room {
            kinds.push(with(base, less, steps.to_vec()));
        }
    }
    kinds
}

/// Each of the four nearer to 0: at once, by a digit, by one.
fn forged_candidates(number: &Forged) -> Vec<Kind> {
    let nearer = |value: u64| {
        let all = [0, value / 10, value.saturating_sub(1)];
        all.into_iter().filter(move |&less| less < value)
    };
    let mut all = Vec::new();
    for minus in nearer(number.minus.into()) {
        let minus = minus as u32;
        all.push(Forged { minus, ..*number });
    }
    for coefficient in nearer(number.coefficient) {
        all.push(Forged {
            coefficient,
            ..*number
        });
    }
    for magnitude in nearer(number.power.unsigned_abs().into()) {
        // nearer to 0 than the power is, so of 32 bits
        let power = magnitude as i32 * number.power.signum();
        all.push(Forged { power, ..*number });
    }
    for decimals in nearer(number.decimals.into()) {
        let decimals = decimals as u32;
        all.push(Forged {
            decimals,
            ..*number
        });
    }
    all.into_iter()
        .map(|number| Kind::Forged { number })
        .collect()
}

/// One trace less, and then bytes away or zero; the length goes with the bytes.
fn file_candidates(
    buffer: &[u8],
    length: usize,
    kind: impl Fn(Vec<u8>, usize) -> Kind,
) -> Vec<Kind> {
    let mut kinds = Vec::new();
    if let Some(fewer) = one_trace_less(buffer) {
        kinds.push(kind(fewer, length));
    }
    for bytes in simpler(buffer) {
        let away = buffer.len() - bytes.len();
        if away > 0 && length <= buffer.len() {
            kinds.push(kind(bytes.clone(), length.saturating_sub(away)));
        }
        kinds.push(kind(bytes, length));
    }
    kinds
}

/// N one less: the last trace becomes bytes that nothing names.
fn one_trace_less(buffer: &[u8]) -> Option<Vec<u8>> {
    let low = match buffer.first()? {
        0x55 => 6,
        _ => 7,
    };
    let mut fewer = buffer.to_vec();
    let n = fewer.get_mut(low)?;
    *n = n.checked_sub(1)?;
    Some(fewer)
}

fn base_candidates(base: &Base) -> Vec<Base> {
    match base {
        Base::Start(given) => start_candidates(given)
            .into_iter()
            .map(Base::Start)
            .collect(),
        Base::Image { image } => simpler(image)
            .into_iter()
            .map(|image| Base::Image { image })
            .collect(),
    }
}

fn start_candidates(given: &Start) -> Vec<Start> {
    let with = |sheet| Start {
        sheet,
        ..given.clone()
    };
    simpler(&given.sheet).into_iter().map(with).collect()
}

fn given_candidates(given: &Given) -> Vec<Given> {
    let mut all = Vec::new();
    for sheet in simpler(&given.sheet) {
        all.push(Given {
            sheet,
            ..given.clone()
        });
    }
    let rows: Vec<Row> = match &given.row {
        Row::Integers(row) => simpler(row).into_iter().map(Row::Integers).collect(),
        Row::Bits(row) => simpler(row).into_iter().map(Row::Bits).collect(),
    };
    for row in rows {
        all.push(Given {
            row,
            ..given.clone()
        });
    }
    all
}

/// Parts away, then parts zero.
fn simpler<T: Clone + Default + PartialEq>(row: &[T]) -> Vec<Vec<T>> {
    let mut all = parts_away(row);
    let zero = T::default();
    for (start, end) in parts(row.len()) {
        if row[start..end].iter().any(|value| *value != zero) {
            let mut zeroed = row.to_vec();
            zeroed[start..end].fill(zero.clone());
            all.push(zeroed);
        }
    }
    all
}

fn parts_away<T: Clone>(row: &[T]) -> Vec<Vec<T>> {
    let without = |(start, end): (usize, usize)| [&row[..start], &row[end..]].concat();
    parts(row.len()).into_iter().map(without).collect()
}

/// All of it, halves, quarters and so on; single ones only where there are few.
fn parts(size: usize) -> Vec<(usize, usize)> {
    let mut all = Vec::new();
    let mut step = size;
    while step > 0 && size / step <= 512 {
        for start in (0..size).step_by(step) {
            all.push((start, (start + step).min(size)));
        }
        step /= 2;
    }
    all
}
