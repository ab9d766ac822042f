//! Every question about a buffer, asked of the archive and of the reference.

use crate::answer::{Answer, Verdict};
use crate::call::{keyword_questions, sample_questions, Call};
use crate::lent::Rows;
use crate::pair::{Difference, Pair};
use seg2_reference as reference;
use seg2_reference::generate::{quick_key, Rng};
use seg2_reference::words::u16_at;
use seg2_reference::{is_of_check, Order, StringPlace};

/// Of parts and strings that there are many of, so many are asked for.
const MOST: usize = 4;

/// How a question is asked: with its other forms, or in one of them.
type Ask = fn(&mut Pair, usize, Call) -> Result<Answer, Difference>;

/// Every question with the given length, and each once with other lengths. The numbers
/// drawn choose what is asked for where there is much of it.
pub fn ask_all(pair: &mut Pair, length: usize, rng: &mut Rng) -> Result<(), Difference> {
    ask_forms(pair, length, Call::Check)?;
    match reference::check(&pair.memory().buffer, length) {
        Ok(file) => {
            ask_forms(pair, length, Call::FileBlock)?;
            ask_file(pair, length, &file, rng)?;
        }
        // The same refusal by every strict question.
        Err(_) => ask_each(pair, length, rng)?,
    }
    let size = pair.memory().buffer.len();
    let near = length.wrapping_sub(rng.between(1, 8));
    for _ in 0..2 {
        let other = rng.pick(&[0, 31, 32, size, size + 1, near, usize::MAX, 67_108_865]);
        ask_forms(pair, other, Call::Check)?;
        ask_each(pair, other, rng)?;
    }
    ask_quick(pair, length, rng)?;
    ask_forgiven(pair, length, rng)
}

/// Every part of a file that keeps the rules, and parts that it does not have.
fn ask_file(
    pair: &mut Pair,
    length: usize,
    file: &reference::File,
    rng: &mut Rng,
) -> Result<(), Difference> {
    let n = i32::from(file.n);
    ask_part(pair, length, -1, &file.strings, 3, rng)?;
    for k in some_of(rng, file.traces.len()) {
        let trace = &file.traces[k];
        let samples = trace.s as usize;
        ask_part(pair, length, k as i32, &trace.strings, samples, rng)?;
    }
    for part in [-2, n, n + 1, i32::MIN, i32::MAX] {
        if rng.one_in(2) {
            ask_part(pair, length, part, &[], 2, rng)?;
        }
    }
    Ok(())
}

/// Every lenient question of some part of a file that the strict check refuses and the lenient
/// one accepts (document 02, §11).
fn ask_forgiven(pair: &mut Pair, length: usize, rng: &mut Rng) -> Result<(), Difference> {
    let told = reference::lenient_check(&pair.memory().buffer, length);
    let (Ok(file), Some(_)) = (told.answer, told.strict) else {
        return Ok(());
    };
    let n = i32::from(file.n);
    let k = rng.between(0, file.traces.len() - 1);
    let trace = &file.traces[k];
    let none = rng.pick(&[-2, n, n + 1, i32::MIN, i32::MAX]);
    let (part, strings, samples) = match rng.between(0, 7) {
        0 => (none, &[][..], 2),
        1 | 2 => (-1, &file.strings[..], 3),
        _ => (k as i32, &trace.strings[..], trace.s as usize),
    };
    ask_part_by(pair, length, part, strings, samples, ask_lenient, rng)
}

/// Indices below the count: all of them, or some with the last.
fn some_of(rng: &mut Rng, count: usize) -> Vec<usize> {
    if count <= MOST {
        return (0..count).collect();
    }
    let mut some: Vec<usize> = (1..MOST).map(|_| rng.between(0, count - 1)).collect();
    some.push(count - 1);
    some
}

/// A question with its quick form and its lenient one, all with the same rows. Where the file
/// keeps the rules, they answer alike, rows included: the quick one of every trace number from
/// 0 on, the lenient one with no refusal beside it. Where it does not, the strict verdict beside
/// the lenient answer is this question's own refusal. Answers the question's own.
pub fn ask_forms(pair: &mut Pair, length: usize, call: Call) -> Result<Answer, Difference> {
    let lent = call.fills().then(|| pair.memory().rows());
    let rows_after = |pair: &Pair| call.fills().then(|| pair.memory().rows());
    let full = pair.ask(length, call)?;
    let told = rows_after(pair);
    // A file that keeps the rules is refused by the question's own rows alone.
    let kept = !is_of_check(full.number as u8);
    if let Some(quick) = call.quick() {
        lend_again(pair, lent.as_ref());
        let answer = pair.ask(length, quick)?;
        let alike = (answer, rows_after(pair)) == (full, told.clone());
        if kept && call.part() >= Some(0) && !alike {
            return Err(pair.differs(length, quick, format!("{answer:?} for {full:?}")));
        }
    }
    if let Some(lenient) = call.lenient() {
        lend_again(pair, lent.as_ref());
        let answer = pair.ask(length, lenient)?;
        let alike = match kept {
            true => (answer, rows_after(pair)) == (full.beside(Verdict::ACCEPTED), told),
            false => answer.strict == Some(full.verdict()),
        };
        if !alike {
            return Err(pair.differs(length, lenient, format!("{answer:?} for {full:?}")));
        }
    }
    Ok(full)
}

/// The lenient form of a question alone.
fn ask_lenient(pair: &mut Pair, length: usize, call: Call) -> Result<Answer, Difference> {
    pair.ask(length, call.lenient().expect("a question of a file"))
}

/// The rows as they were before another form has filled them.
fn lend_again(pair: &mut Pair, rows: Option<&Rows>) {
    if let Some(rows) = rows {
        pair.lend_rows(rows);
    }
}

/// Every question about one part of a file that keeps the rules, which has these strings and
/// so many samples.
pub fn ask_part(
    pair: &mut Pair,
    length: usize,
    part: i32,
    strings: &[StringPlace],
    samples: usize,
    rng: &mut Rng,
) -> Result<(), Difference> {
    ask_part_by(pair, length, part, strings, samples, ask_forms, rng)
}

/// The same in one form or in all.
fn ask_part_by(
    pair: &mut Pair,
    length: usize,
    part: i32,
    strings: &[StringPlace],
    samples: usize,
    ask: Ask,
    rng: &mut Rng,
) -> Result<(), Difference> {
    ask(pair, length, Call::TraceBlock { trace: part })?;
    ask(pair, length, Call::StringCount { part })?;
    let mut indices = some_of(rng, strings.len());
    indices.extend([strings.len(), strings.len() + 1, usize::MAX]);
    for index in indices {
        ask(pair, length, Call::String { part, index })?;
    }
    let four = 4 * strings.len();
    let other = rng.pick(&[0, strings.len(), four + 1, four.saturating_sub(1), four + 4]);
    for row in [four, other] {
        pair.lend_rows(&Rows::junk(rng, 0, 0, row));
        ask(pair, length, Call::Strings { part })?;
    }
    for key in keys(&pair.memory().buffer, strings, rng) {
        pair.lend_key(&key);
        ask_key(pair, length, part, ask)?;
    }
    ask_samples(pair, length, part, samples, ask, rng)
}

/// Keywords that are there, and others.
fn keys(buffer: &[u8], strings: &[StringPlace], rng: &mut Rng) -> Vec<Vec<u8>> {
    let mut keys: Vec<Vec<u8>> = some_of(rng, strings.len())
        .iter()
        .map(|&i| buffer[strings[i].keyword.clone()].to_vec())
        .collect();
    // What a keyword in lower case counts as, and it as it stands, which is a no.
    let lower = keys
        .iter()
        .filter(|key| key.iter().any(u8::is_ascii_lowercase));
    let upper: Vec<Vec<u8>> = lower.map(|key| key.to_ascii_uppercase()).collect();
    keys.extend(upper);
    let mut near = match keys.is_empty() {
        true => b"STACK".to_vec(),
        false => rng.pick(&keys),
    };
    match rng.between(0, 3) {
        0 => near.truncate(near.len() - 1),
        1 => near.push(rng.pick(b"X \t\0!")),
        2 => near[0] ^= 0x20,
        _ => near.insert(0, b'A'),
    }
    keys.push(near);
    let count = rng.between(1, 9);
    let any = rng.junk(count);
    keys.push(rng.pick(&[
        any,
        b"NOTE".to_vec(),
        Vec::new(),
        b"RECEIVER_LOCATION".to_vec(),
    ]));
    keys
}

/// Every question with the keyword that is lent.
fn ask_key(pair: &mut Pair, length: usize, part: i32, ask: Ask) -> Result<(), Difference> {
    for call in keyword_questions(part) {
        ask(pair, length, call)?;
    }
    Ok(())
}

/// The questions of one trace (document 02, §5), which may answer where every other refuses:
/// of traces that the file block tells of and one that it does not.
fn ask_quick(pair: &mut Pair, length: usize, rng: &mut Rng) -> Result<(), Difference> {
    let count = traces_told(&pair.memory().buffer, length);
    let mut traces: Vec<i32> = some_of(rng, count).iter().map(|&k| k as i32).collect();
    let n = count as i32;
    traces.push(rng.pick(&[-2, -1, -1, n, n + 1, i32::MIN, i32::MAX]));
    for trace in traces {
        ask_quickly(pair, length, trace, rng)?;
    }
    Ok(())
}

/// Each of them of one trace, with some keys, indices and rows.
fn ask_quickly(
    pair: &mut Pair,
    length: usize,
    trace: i32,
    rng: &mut Rng,
) -> Result<(), Difference> {
    let part = trace;
    let buffer = &pair.memory().buffer;
    let keywords = keywords_met(buffer, length, trace);
    let block = reference::quick_trace_block(buffer, length, trace.into());
    let samples = block.map_or(3, |block| block.s as usize);
    for i in 0..MOST {
        pair.lend_key(&quick_key(rng, &keywords));
        // The value as a number and so on once: they find it as these two do.
        let calls = keyword_questions(part);
        let calls = if i == 0 { &calls[..] } else { &calls[..2] };
        ask_quick_forms(pair, length, calls)?;
    }
    // What is met first, what is met last or refused, and what would be past it.
    let count = keywords.len();
    let index = rng.pick(&[0, count.saturating_sub(1), count, count + 1]);
    // Rows that are too long now and then.
    let [more, numbers] = rng.pick(&[[0, 0], [0, 0], [0, 1], [1, 4]]);
    let strings = 4 * count + numbers;
    pair.lend_rows(&Rows::junk(rng, samples + more, samples, strings));
    let calls = [
        Call::TraceBlock { trace },
        Call::StringCount { part },
        Call::String { part, index },
        Call::Strings { part },
    ];
    ask_quick_forms(pair, length, &calls)?;
    ask_quick_forms(pair, length, &sample_questions(trace))
}

fn ask_quick_forms(pair: &mut Pair, length: usize, calls: &[Call]) -> Result<(), Difference> {
    for quick in calls.iter().filter_map(|call| call.quick()) {
        pair.ask(length, quick)?;
    }
    Ok(())
}

/// N, where rows 1 to 7 pass; whether there are so many traces is another matter.
fn traces_told(buffer: &[u8], length: usize) -> usize {
    // A trace that no file has: 18 comes right behind row 7.
    let nowhere = reference::quick_keyword(buffer, length, -1, b"");
    let order = match buffer.first() {
        Some(0x55) => Order::Low,
        _ => Order::High,
    };
    match nowhere.is_err_and(|refusal| refusal.number == 18) {
        true => u16_at(buffer, 6, order).into(),
        false => 0,
    }
}

/// The keywords that a search to the end meets among a trace's strings, with that of the
/// string which it refuses, if it gets to one.
fn keywords_met(buffer: &[u8], length: usize, trace: i32) -> Vec<Vec<u8>> {
    let search = reference::quick_search(buffer, length, trace.into(), b"NOTE");
    let word = |s: &StringPlace| buffer[s.keyword.clone()].to_vec();
    let mut met: Vec<Vec<u8>> = search.strings.iter().map(word).collect();
    if let Err(refusal) = search.answer {
        if matches!(refusal.number, 15..=17) {
            let text = &buffer[refusal.place as usize + 2..];
            let is_letter = |c: &&u8| **c > b' ';
            met.push(text.iter().take_while(is_letter).copied().collect());
        }
    }
    met
}

/// Rows of the right length, one less, one more and none; then one of the two rows is not the
/// other's length.
fn ask_samples(
    pair: &mut Pair,
    length: usize,
    trace: i32,
    samples: usize,
    ask: Ask,
    rng: &mut Rng,
) -> Result<(), Difference> {
    let less = samples.saturating_sub(1);
    for row in [samples, less, samples + 1, 0] {
        pair.lend_rows(&Rows::junk(rng, row, row, 0));
        for call in sample_questions(trace) {
            ask(pair, length, call)?;
        }
    }
    for (row, classes) in [(samples, samples + 1), (less, samples)] {
        pair.lend_rows(&Rows::junk(rng, row, classes, 0));
        ask(pair, length, Call::Bits { trace })?;
    }
    Ok(())
}

/// Every question once.
fn ask_each(pair: &mut Pair, length: usize, rng: &mut Rng) -> Result<(), Difference> {
    let part = rng.pick(&[-2, -1, -1, 0, 0, 1, i32::MIN, i32::MAX]);
    ask_forms(pair, length, Call::FileBlock)?;
    ask_forms(pair, length, Call::TraceBlock { trace: part })?;
    ask_forms(pair, length, Call::StringCount { part })?;
    ask_forms(pair, length, Call::String { part, index: 0 })?;
    pair.lend_key(rng.pick(&[&b"STACK"[..], b"NOTE", b"", b"\xFF"]));
    ask_key(pair, length, part, ask_forms)?;
    let count = rng.between(0, 9);
    pair.lend_rows(&Rows::junk(rng, count, count, count));
    ask_forms(pair, length, Call::Strings { part })?;
    for call in sample_questions(part) {
        ask_forms(pair, length, call)?;
    }
    Ok(())
}
