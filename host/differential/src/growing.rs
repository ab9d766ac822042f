//! Files that grow: a start or another maker's file, and a list of additions.
//!
//! After each call the buffer has to be, byte for byte, the file that the list so far
//! defines; after each addition every earlier string and sample is read back.

use crate::answer::Answer;
use crate::asking::ask_forms;
use crate::call::Call;
use crate::case::{Base, Given, Start};
use crate::lent::Rows;
use crate::pair::{Difference, Pair};
use seg2_reference as reference;
use seg2_reference::generate::Rng;
use seg2_reference::sheet::sheet_strings;
use seg2_reference::{Row, StringPlace, TraceGiven};

/// What a part has to read as.
struct Told {
    /// Keywords and values.
    strings: Vec<(Vec<u8>, Vec<u8>)>,
    /// None for the file itself.
    samples: Option<Row>,
}

/// Runs the additions on a buffer that the pair already holds; an image of another
/// maker stands in it.
pub fn grow(
    pair: &mut Pair,
    base: &Base,
    steps: &[Given],
    rng: &mut Rng,
) -> Result<(), Difference> {
    let (mut length, mut told) = match base {
        Base::Start(given) => {
            let answer = start(pair, given)?;
            if answer.number != 0 {
                return Ok(());
            }
            let strings = strings_of(&given.sheet, b"\n");
            let samples = None;
            (answer.values[0] as usize, vec![Told { strings, samples }])
        }
        Base::Image { image } => (image.len(), read_image(pair, image.len(), rng)?),
    };
    let line = line_terminator(&pair.memory().buffer);
    let mut list = Vec::new();
    for step in steps {
        let before = pair.memory().buffer.clone();
        let (answer, call) = add(pair, length, step)?;
        if answer.number == 0 {
            let new_length = answer.values[0] as usize;
            only_named_bytes(pair, &before, length, new_length, call)?;
            length = new_length;
            list.push(TraceGiven {
                sheet: step.sheet.clone(),
                code: step.code as u8,
                row: step.row.clone(),
            });
            told.push(Told {
                strings: strings_of(&step.sheet, &line),
                samples: Some(kept(step)),
            });
        }
        if let Base::Start(given) = base {
            is_defined(pair, length, given, &list, call)?;
        }
        read_back(pair, length, &told, rng)?;
    }
    Ok(())
}

/// One start on both sides, its room first. It is given no length.
pub fn start(pair: &mut Pair, given: &Start) -> Result<Answer, Difference> {
    pair.lend_sheet(&given.sheet);
    let (order, slots) = (given.order, given.slots);
    let room = pair.ask(0, Call::StartSize { order, slots })?;
    let call = Call::Start { order, slots };
    let answer = pair.ask(0, call)?;
    then_room(pair, 0, call, room, answer)?;
    Ok(answer)
}

/// A call is the question for its room and then row 30: said of the answers alone, beside
/// the reference's own. Samples that their entry does not take (28, 29) are not known to
/// the question.
fn then_room(
    pair: &Pair,
    length: usize,
    call: Call,
    room: Answer,
    answer: Answer,
) -> Result<(), Difference> {
    let enough = room.values[0] as usize <= pair.memory().buffer.len();
    let alike = match (room.number, answer.number) {
        (_, 28 | 29) => room.number == 0 || [28, 30].contains(&room.number),
        (0, 0) => enough && room == answer,
        (0, 30) => !enough,
        _ => room == answer,
    };
    match alike {
        true => Ok(()),
        false => Err(pair.differs(length, call, format!("{answer:?} behind the room {room:?}"))),
    }
}

/// The room of an addition on both sides: of its own samples, and of as many as a number
/// may say.
fn ask_room(pair: &mut Pair, length: usize, code: u32, count: usize) -> Result<Answer, Difference> {
    let many = usize::MAX >> (length % 64);
    for count in [many, many & !3, count + (1 << 32)] {
        pair.ask(length, Call::AddSize { code, count })?;
    }
    pair.ask(length, Call::AddSize { code, count })
}

/// One addition on both sides, its room first.
pub fn add(pair: &mut Pair, length: usize, given: &Given) -> Result<(Answer, Call), Difference> {
    pair.lend_sheet(&given.sheet);
    let code = given.code;
    let room = match &given.row {
        Row::Integers(row) => ask_room(pair, length, code, row.len())?,
        Row::Bits(row) => ask_room(pair, length, code, row.len())?,
    };
    let call = match &given.row {
        Row::Integers(row) => {
            pair.lend_integers(row);
            Call::AddIntegers { code }
        }
        Row::Bits(row) => {
            pair.lend_patterns(row);
            Call::AddBits { code }
        }
    };
    let answer = pair.ask(length, call)?;
    then_room(pair, length, call, room, answer)?;
    Ok((answer, call))
}

/// The image is the file that the start and the list of additions so far define.
fn is_defined(
    pair: &Pair,
    length: usize,
    start: &Start,
    list: &[TraceGiven],
    call: Call,
) -> Result<(), Difference> {
    let defined = reference::file_of(start.order, start.slots.into(), &start.sheet, list);
    match defined.as_deref() == Ok(&pair.memory().buffer[..length]) {
        true => Ok(()),
        false => {
            let what = format!("not the file of the {} traces so far", list.len());
            Err(pair.differs(length, call, what))
        }
    }
}

/// An addition changes N's two bytes, the first free slot and what lies from the old
/// end to the new one. Said of the bytes alone, beside the reference's own writer.
fn only_named_bytes(
    pair: &Pair,
    before: &[u8],
    length: usize,
    new_length: usize,
    call: Call,
) -> Result<(), Difference> {
    let n = match before[0] {
        0x55 => u16::from_le_bytes([before[6], before[7]]),
        _ => u16::from_be_bytes([before[6], before[7]]),
    };
    let slot = 32 + 4 * usize::from(n);
    let mut restored = pair.memory().buffer.clone();
    for named in [6..8, slot..slot + 4, length..new_length] {
        restored[named.clone()].copy_from_slice(&before[named]);
    }
    match restored == before {
        true => Ok(()),
        false => Err(pair.differs(length, call, "changed more than it may".into())),
    }
}

/// The keywords and values of a sheet's strings.
fn strings_of(sheet: &[u8], line_terminator: &[u8]) -> Vec<(Vec<u8>, Vec<u8>)> {
    let strings = sheet_strings(sheet).unwrap_or_default();
    strings
        .into_iter()
        .map(|s| (s.keyword, s.lines.join(line_terminator)))
        .collect()
}

/// None where the buffer is too short for one: then nothing can be added.
fn line_terminator(buffer: &[u8]) -> Vec<u8> {
    match buffer.get(11..14) {
        Some(&[1, c, _]) => vec![c],
        Some(&[_, c, d]) => vec![c, d],
        _ => Vec::new(),
    }
}

/// What is kept of given samples: under code 3 "low bits are cut toward zero" until 15
/// are left.
fn kept(given: &Given) -> Row {
    let Row::Integers(row) = &given.row else {
        return given.row.clone();
    };
    if given.code != 3 {
        return given.row.clone();
    }
    let cut = |&sample: &i32| {
        let exponent = 17_u32.saturating_sub(sample.unsigned_abs().leading_zeros());
        let magnitude = (sample.unsigned_abs() >> exponent << exponent) as i32;
        magnitude * sample.signum()
    };
    Row::Integers(row.iter().map(cut).collect())
}

/// What another maker's image says before the first addition. The reader refuses an
/// image without traces; then the check of an addition tells its strings.
fn read_image(pair: &mut Pair, length: usize, rng: &mut Rng) -> Result<Vec<Told>, Difference> {
    pair.ask(length, Call::Check)?;
    let buffer = pair.memory().buffer.clone();
    let Ok(file) = reference::check_for_addition(&buffer, length) else {
        return Ok(vec![]);
    };
    let texts = |strings: &[StringPlace]| {
        let text = |s: &StringPlace| {
            let [key, value] = [&s.keyword, &s.value].map(|range| buffer[range.clone()].to_vec());
            (key, value)
        };
        strings.iter().map(text).collect::<Vec<_>>()
    };
    let mut told = vec![Told {
        strings: texts(&file.strings),
        samples: None,
    }];
    for (k, trace) in file.traces.iter().enumerate() {
        let (strings, code) = (texts(&trace.strings), trace.code);
        let samples = read_samples(pair, length, k as i32, code.into(), trace.s as usize, rng)?;
        told.push(Told {
            strings,
            samples: Some(samples),
        });
    }
    Ok(told)
}

/// A trace's samples through the archive.
fn read_samples(
    pair: &mut Pair,
    length: usize,
    trace: i32,
    code: u64,
    count: usize,
    rng: &mut Rng,
) -> Result<Row, Difference> {
    pair.lend_rows(&Rows::junk(rng, count, count, 0));
    Ok(match code {
        1..=3 => {
            ask_forms(pair, length, Call::Integers { trace })?;
            Row::Integers(pair.memory().integers.clone())
        }
        _ => {
            ask_forms(pair, length, Call::Bits { trace })?;
            Row::Bits(pair.memory().patterns.clone())
        }
    })
}

/// Every string and every sample as they were given or stood before.
fn read_back(
    pair: &mut Pair,
    length: usize,
    told: &[Told],
    rng: &mut Rng,
) -> Result<(), Difference> {
    if told.len() < 2 {
        // Without a trace the reader refuses, by 5.
        pair.ask(length, Call::Check)?;
        return Ok(());
    }
    for (i, expected) in told.iter().enumerate() {
        let part = i as i32 - 1;
        let call = Call::StringCount { part };
        let count = pair.ask(length, call)?;
        if count != Answer::good([expected.strings.len() as u64]) {
            let what = format!("{count:?} for {} strings", expected.strings.len());
            return Err(pair.differs(length, call, what));
        }
        let mut places: Vec<[usize; 4]> = Vec::new();
        for (index, (key, value)) in expected.strings.iter().enumerate() {
            // "A keyword question answers the first" (document 02, §1)
            let first = expected.strings.iter().position(|(k, _)| k == key);
            let first = first.and_then(|i| places.get(i)).copied();
            places.push(read_string(pair, length, part, index, (key, value), first)?);
        }
        read_row(pair, length, part, &places.concat(), rng)?;
        let Some(samples) = &expected.samples else {
            continue;
        };
        let call = Call::TraceBlock { trace: part };
        let block = pair.ask(length, call)?;
        let (count, code) = (block.values[3] as usize, block.values[4]);
        let read = read_samples(pair, length, part, code, count, rng)?;
        if &read != samples {
            let what = format!("read {read:?}, given {samples:?}");
            return Err(pair.differs(length, call, what));
        }
    }
    Ok(())
}

/// All strings in one row, as they are by their indices.
fn read_row(
    pair: &mut Pair,
    length: usize,
    part: i32,
    row: &[usize],
    rng: &mut Rng,
) -> Result<(), Difference> {
    pair.lend_rows(&Rows::junk(rng, 0, 0, row.len()));
    let call = Call::Strings { part };
    match part {
        -1 => pair.ask(length, call)?,
        _ => ask_forms(pair, length, call)?,
    };
    match pair.memory().strings == row {
        true => Ok(()),
        false => Err(pair.differs(length, call, format!("another row than {row:?}"))),
    }
}

/// A string by its index, and the value of its keyword, which is its own where no string
/// before it has the keyword. Answers where its keyword and its value stand.
fn read_string(
    pair: &mut Pair,
    length: usize,
    part: i32,
    index: usize,
    (key, value): (&[u8], &[u8]),
    first: Option<[usize; 4]>,
) -> Result<[usize; 4], Difference> {
    let call = Call::String { part, index };
    let values = ask_forms(pair, length, call)?.values.map(|v| v as usize);
    let [found, at, letters, start, size, ..] = values;
    let own = [at, letters, start, size];
    pair.lend_key(key);
    // The file keeps the rules, so one trace alone says the same (document 02, §5).
    let same = ask_forms(pair, length, Call::Value { part })?;
    let [_, _, first, first_size] = first.unwrap_or(own);
    let buffer = &pair.memory().buffer;
    let right = found == 1
        && &buffer[at..at + letters] == key
        && &buffer[start..start + size] == value
        && same == Answer::good([first as u64, first_size as u64]);
    match right {
        true => Ok(own),
        false => Err(pair.differs(length, call, "another string than was given".into())),
    }
}
