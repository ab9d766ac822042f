//! Starts (rows 31, 25, 26, 27, 30) and additions (the file's check, 24 to 27, 35, 28 to
//! 30) with their answers and the whole buffer after them, laid out from models.

use super::channels::{bad_channel, channel_for, good_channel};
use super::damage::{damaged, Scope};
use super::expected::{first_of, when};
use super::model::{
    random_code_4, random_code_5, random_i32, AreaModel, End, Float20, Model, SamplesModel,
    StringModel, TraceModel,
};
use super::rng::Rng;
use super::sheets::{area_size, some_sheet, up_to_4, SheetCase};
use super::ways::WAYS;
use crate::refusal::Refusal;
use crate::sheet::SheetString;
use crate::words::Order;
use crate::write::Row;

/// Inputs of a start, the length it must answer, and the buffer after it.
#[derive(Clone, Debug)]
pub struct StartCase {
    pub buffer: Vec<u8>,
    pub order: u32,
    pub slots: u64,
    pub sheet: Vec<u8>,
    pub expected: Result<usize, Refusal>,
    pub after: Vec<u8>,
}

pub fn start_case(rng: &mut Rng) -> StartCase {
    let mut sheet = some_sheet(rng);
    if rng.one_in(4) {
        // The file's own strings: no trace's channel number, so any value.
        let value = match rng.one_in(2) {
            true => good_channel(rng),
            false => bad_channel(rng),
        };
        sheet = sheet.with_channel(Some(value));
    }
    let SheetCase { sheet, expected } = sheet;
    let order = rng.pick(&[0, 1, 0, 1, 0, 1, 0, 1, 2, u32::MAX]);
    let bad_slots = rng.pick(&[0, 16_384, 65_537, 1 << 32 | 1, u64::MAX]);
    let good_slots = rng.pick(&[1, 1, 2, 7, 50, 16_383]);
    let slots = if rng.one_in(6) { bad_slots } else { good_slots };
    let area = expected.as_ref().map_or(0, |s| area_size(s, 1, 1));
    let length = 32 + 4 * good_slots as usize + area;
    let room = some_room(rng, length);
    let refusals = [
        when(order > 1 || slots == 0 || slots > 16_383, 31),
        expected.as_ref().err().copied(),
        when(area > 65_500, 27),
        when(length > room, 30),
    ];
    let buffer = rng.junk(room);
    let answer = first_of(&refusals, length);
    let mut after = buffer.clone();
    if let (Ok(length), Ok(strings)) = (answer, &expected) {
        let image = started(order, slots as u16, strings).lay().buffer;
        after[..length].copy_from_slice(&image);
    }
    StartCase {
        buffer,
        order,
        slots,
        sheet,
        expected: answer,
        after,
    }
}

/// The model of a start's image: "revision 1, M of 4 times the slots, N=0,
/// terminators 00 and 0A (length 1), zeros elsewhere, and the area".
fn started(order: u32, slots: u16, strings: &[SheetString]) -> Model {
    Model {
        order: if order == 0 { Order::Low } else { Order::High },
        slots,
        string_terminator: vec![0x00],
        line_terminator: vec![0x0A],
        unused: [0, 0],
        reserved: vec![0; 18],
        spare_slots: vec![0; 4 * usize::from(slots)],
        area: written_area(strings, 1, 1),
        traces: Vec::new(),
        after: Vec::new(),
        beyond: Vec::new(),
    }
}

/// "keyword, one space, value .. then the end mark 0 (for an empty list too), then
/// zeros to a multiple of 4"
fn written_area(strings: &[SheetString], string_terminator: usize, line: usize) -> AreaModel {
    let models = strings.iter().map(|string| StringModel {
        keyword: string.keyword.clone(),
        separators: b" ".to_vec(),
        lines: string.lines.clone(),
    });
    let with_zeros = area_size(strings, string_terminator, line);
    let mut area = AreaModel {
        strings: models.collect(),
        end: End::Nothing,
    };
    let size = 2 + area.strings_size(&vec![0; string_terminator], &vec![0; line]);
    area.end = End::Mark(vec![0; with_zeros - size]);
    area
}

/// Room for so many bytes, more, or once in five times less.
fn some_room(rng: &mut Rng, length: usize) -> usize {
    if rng.one_in(5) {
        let less = rng.between(1, length);
        length - rng.pick(&[1, 1, less])
    } else {
        length + rng.pick(&[0, 0, 1, 3, 50])
    }
}

/// Inputs of an addition, the length it must answer, and the buffer after it.
#[derive(Clone, Debug)]
pub struct AdditionCase {
    pub buffer: Vec<u8>,
    pub length: usize,
    pub sheet: Vec<u8>,
    pub code: u8,
    pub row: Row,
    pub expected: Result<usize, Refusal>,
    pub after: Vec<u8>,
}

pub fn addition_case(rng: &mut Rng) -> AdditionCase {
    let model = if rng.one_in(3) {
        Model::image(rng)
    } else {
        Model::random(rng)
    };
    let laid = model.lay();
    let (channel, taken) = channel_for(rng, model.traces_have_channels());
    let SheetCase { sheet, expected } = some_sheet(rng).with_channel(channel);
    let (code, row, sample_refusals) = some_row(rng);
    let (st, lt) = (
        laid.file.string_terminator.len(),
        laid.file.line_terminator.len(),
    );
    let area = expected.as_ref().map_or(0, |s| area_size(s, st, lt));
    let new_length = up_to_4(laid.length) + 32 + area + up_to_4(data_size(code, &row));
    let room = some_room(rng, new_length).max(laid.length);
    let mut buffer = laid.buffer[..laid.length].to_vec();
    buffer.extend(rng.junk(room - laid.length));
    let refusals = [
        when(laid.file.n == laid.file.m / 4, 24),
        expected.as_ref().err().copied(),
        when(area > 65_500, 27),
        when(!taken, 35),
        sample_refusals[0],
        sample_refusals[1],
        when(new_length > room, 30),
    ];
    let answer = first_of(&refusals, new_length);
    let mut after = buffer.clone();
    if let (Ok(new_length), Ok(strings)) = (answer, &expected) {
        let grown = grown(model, strings, code, &row).lay();
        after[..new_length].copy_from_slice(&grown.buffer[..grown.length]);
    }
    let mut case = AdditionCase {
        buffer,
        length: laid.length,
        sheet,
        code,
        row,
        expected: answer,
        after,
    };
    if rng.one_in(10) {
        damage(rng, &mut case);
    }
    case
}

/// The model with one trace more: it "begins at the old length rounded up to 4",
/// "the gap and all unnamed bytes zero".
fn grown(mut model: Model, strings: &[SheetString], code: u8, row: &Row) -> Model {
    let length = model.lay().length;
    let zeros = vec![0; up_to_4(length) - length];
    let mut gap = std::mem::take(&mut model.after);
    match (&mut model.area.end, model.traces.is_empty()) {
        // The bytes up to the first pointer belong to the file's area.
        (End::Mark(ignored), true) => ignored.extend(zeros),
        _ => gap.extend(zeros),
    }
    let (st, lt) = (model.string_terminator.len(), model.line_terminator.len());
    let slack = up_to_4(data_size(code, row)) - data_size(code, row);
    model.traces.push(TraceModel {
        gap,
        reserved: vec![0; 19],
        area: written_area(strings, st, lt),
        samples: written_samples(code, row),
        slack: vec![0; slack],
    });
    model.spare_slots.drain(..4);
    model
}

fn written_samples(code: u8, row: &Row) -> SamplesModel {
    match row {
        Row::Integers(row) => match code {
            1 => SamplesModel::Code1(row.iter().map(|&v| v as i16).collect()),
            2 => SamplesModel::Code2(row.clone()),
            _ => SamplesModel::Code3(row.iter().map(|&v| written_float(v)).collect()),
        },
        Row::Bits(row) => match code {
            4 => SamplesModel::Code4(row.iter().map(|&v| v as u32).collect()),
            _ => SamplesModel::Code5(row.clone()),
        },
    }
}

/// "the exponent is the smallest, found from the leading zeros of the magnitude,
/// that brings it to at most 32,767; low bits are cut toward zero"
fn written_float(sample: i32) -> Float20 {
    let magnitude = sample.unsigned_abs();
    let exponent = 17_u32.saturating_sub(magnitude.leading_zeros());
    Float20 {
        exponent: exponent as u16,
        minus: sample < 0,
        magnitude: (magnitude >> exponent) as u16,
    }
}

/// The rows of the file's check come before all others. N=0 is no damage here.
fn damage(rng: &mut Rng, case: &mut AdditionCase) {
    let way = &WAYS[rng.between(0, WAYS.len() - 1)];
    if way.scope == Scope::Reading {
        return;
    }
    let broken = damaged(rng, way);
    case.after = broken.buffer.clone();
    case.buffer = broken.buffer;
    case.length = broken.length;
    case.expected = Err(broken.expected);
}

fn data_size(code: u8, row: &Row) -> usize {
    let count = match row {
        Row::Integers(row) => row.len(),
        Row::Bits(row) => row.len(),
    };
    match code {
        1 => 2 * count,
        3 => count / 4 * 10,
        5 => 8 * count,
        _ => 4 * count,
    }
}

/// A code, a row, and the refusals 28 and 29 that they deserve.
fn some_row(rng: &mut Rng) -> (u8, Row, [Option<Refusal>; 2]) {
    let wrong_code = rng.one_in(10);
    let count = rng.pick(&[0, 1, 3, 4, 4, 8, 8, 12, 17]);
    let wild = rng.one_in(4);
    if rng.one_in(2) {
        let good = rng.pick(&[1, 2, 3, 3]);
        let code = if wrong_code {
            rng.pick(&[0, 4, 5, 6, 255])
        } else {
            good
        };
        let row = some_integers(rng, code, count, wild);
        let no_kind = when(!(1..=3).contains(&code) || code == 3 && count % 4 != 0, 28);
        let outside = row.iter().position(|&v| is_outside(code, v));
        let outside = outside.map(|index| Refusal::file(29, index));
        (code, Row::Integers(row), [no_kind, outside])
    } else {
        let good = rng.pick(&[4, 5]);
        let code = if wrong_code {
            rng.pick(&[0, 1, 2, 3, 6, 255])
        } else {
            good
        };
        let row = some_patterns(rng, code, count, wild);
        let no_kind = when(!(4..=5).contains(&code), 28);
        let outside = row.iter().position(|&v| code == 4 && v >> 32 != 0);
        let outside = outside.map(|index| Refusal::file(29, index));
        (code, Row::Bits(row), [no_kind, outside])
    }
}

fn is_outside(code: u8, sample: i32) -> bool {
    match code {
        1 => i32::from(sample as i16) != sample,
        3 => i64::from(sample).abs() >= 1 << 30,
        _ => false,
    }
}

/// A row for a code, of integers or of patterns as the code has them. Its samples fit
/// the code, unless the row is wild.
pub fn row_for(rng: &mut Rng, code: u8, count: usize, wild: bool) -> Row {
    match code {
        1..=3 => Row::Integers(some_integers(rng, code, count, wild)),
        _ => Row::Bits(some_patterns(rng, code, count, wild)),
    }
}

/// So many samples that fit their code, unless the row is wild.
pub fn some_integers(rng: &mut Rng, code: u8, count: usize, wild: bool) -> Vec<i32> {
    (0..count).map(|_| some_integer(rng, code, wild)).collect()
}

/// So many patterns that fit their code, unless the row is wild.
pub fn some_patterns(rng: &mut Rng, code: u8, count: usize, wild: bool) -> Vec<u64> {
    (0..count).map(|_| some_pattern(rng, code, wild)).collect()
}

fn some_integer(rng: &mut Rng, code: u8, wild: bool) -> i32 {
    loop {
        let sample = random_i32(rng);
        if !is_outside(code, sample) || wild && rng.one_in(3) {
            return sample;
        }
    }
}

fn some_pattern(rng: &mut Rng, code: u8, wild: bool) -> u64 {
    if code == 5 || wild && rng.one_in(4) {
        let far = rng.pick(&[1 << 32, u64::MAX]);
        let any = random_code_5(rng);
        return rng.pick(&[any, any, far]);
    }
    u64::from(random_code_4(rng))
}
