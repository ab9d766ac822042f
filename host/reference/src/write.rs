//! Starting a file, adding a trace, and the file that a list defines: document
//! 01, "What we write", rows 24 to 31, and document 02, §7, row 35.

use crate::channel::{judge_sheet, CHANNEL_NUMBER};
use crate::check::{channel_number, check_for_addition, File, MAXIMUM_LENGTH};
use crate::refusal::{refuse_if, Refusal};
use crate::samples::{encode_bits, encode_integers};
use crate::sheet::{area_of, sheet_strings};
use crate::strings::Terminators;
use crate::words::{bytes_of_u16, bytes_of_u32, round_up_4, Order};

/// The samples of a trace to add.
#[derive(Clone, Debug, PartialEq, Eq)]
pub enum Row {
    /// For codes 1 to 3.
    Integers(Vec<i32>),
    /// For codes 4 and 5.
    Bits(Vec<u64>),
}

/// A trace as it is given to an addition.
#[derive(Clone, Debug, PartialEq, Eq)]
pub struct TraceGiven {
    pub sheet: Vec<u8>,
    pub code: u8,
    pub row: Row,
}

/// Writes the image of a file without traces and answers its length: rows 31,
/// 25, 26, 27, 30. Bytes past the image stay.
pub fn start(buffer: &mut [u8], order: u32, slots: u64, sheet: &[u8]) -> Result<usize, Refusal> {
    let image = start_image(order, slots, sheet)?;
    let Some(room) = buffer.get_mut(..image.len()) else {
        return Err(Refusal::file(30, 0));
    };
    room.copy_from_slice(&image);
    Ok(image.len())
}

/// The length that the file of a start would have: rows 31, 25, 26, 27.
pub fn start_size(order: u32, slots: u64, sheet: &[u8]) -> Result<usize, Refusal> {
    Ok(start_image(order, slots, sheet)?.len())
}

/// The length that the image would have after an addition of so many samples: the file's
/// check, then 24 to 27, 35, 28 for a code that is none or a count that it cannot have, and
/// 30 for the maximum.
pub fn add_size(
    buffer: &[u8],
    length: usize,
    sheet: &[u8],
    code: u8,
    count: usize,
) -> Result<usize, Refusal> {
    let file = check_for_addition(buffer, length)?;
    refuse_if(file.n >= file.m / 4, Refusal::file(24, 0))?;
    let area = area_of(sheet, file.order, &terminators_of(&file))?;
    judge_sheet(sheet, traces_have_channels(&file, buffer))?;
    // in so many bits no count is too large for the sums
    let count = count as u128;
    let data = match code {
        1 => 2 * count,
        2 | 4 => 4 * count,
        3 if count % 4 == 0 => count / 4 * 10,
        5 => 8 * count,
        _ => return Err(Refusal::file(28, 0)),
    };
    let end = (round_up_4(length) + 32 + area.len()) as u128 + data.div_ceil(4) * 4;
    refuse_if(end > MAXIMUM_LENGTH as u128, Refusal::file(30, 0))?;
    Ok(end as usize)
}

/// Adds a trace of code 1, 2 or 3 to the image of the given length and answers
/// the new length: the file's check, then 24 to 27, 35, 28 to 30.
pub fn add_integers(
    buffer: &mut [u8],
    length: usize,
    sheet: &[u8],
    code: u8,
    row: &[i32],
) -> Result<usize, Refusal> {
    let encode = |order| encode_integers(code, order, row);
    add_encoded(buffer, length, sheet, code, row.len(), encode)
}

/// Adds a trace of code 4 or 5 to the image of the given length and answers the
/// new length: the file's check, then 24 to 27, 35, 28 to 30.
pub fn add_bits(
    buffer: &mut [u8],
    length: usize,
    sheet: &[u8],
    code: u8,
    row: &[u64],
) -> Result<usize, Refusal> {
    let encode = |order| encode_bits(code, order, row);
    add_encoded(buffer, length, sheet, code, row.len(), encode)
}

/// The one of the two additions that takes such a row.
pub fn add(
    buffer: &mut [u8],
    length: usize,
    sheet: &[u8],
    code: u8,
    row: &Row,
) -> Result<usize, Refusal> {
    match row {
        Row::Integers(row) => add_integers(buffer, length, sheet, code, row),
        Row::Bits(row) => add_bits(buffer, length, sheet, code, row),
    }
}

/// "The new trace begins at the old length rounded up to 4, and is written into
/// the free end of the buffer, the gap and all unnamed bytes zero." Nothing is
/// written before the last row has passed.
fn add_encoded(
    buffer: &mut [u8],
    length: usize,
    sheet: &[u8],
    code: u8,
    count: usize,
    encode: impl Fn(Order) -> Result<Vec<u8>, Refusal>,
) -> Result<usize, Refusal> {
    let file = check_for_addition(buffer, length)?;
    refuse_if(file.n >= file.m / 4, Refusal::file(24, 0))?;
    let area = area_of(sheet, file.order, &terminators_of(&file))?;
    judge_sheet(sheet, traces_have_channels(&file, buffer))?;
    let data = encode(file.order)?;
    let p = round_up_4(length);
    let new_length = p + 32 + area.len() + data.len();
    let no_room = new_length > buffer.len() || new_length > MAXIMUM_LENGTH;
    refuse_if(no_room, Refusal::file(30, 0))?;

    buffer[length..p].fill(0);
    let trace = trace_bytes(file.order, code, count, &area, &data);
    buffer[p..new_length].copy_from_slice(&trace);
    put_n(buffer, file.order, file.n + 1);
    put_pointer(buffer, file.order, usize::from(file.n), p);
    Ok(new_length)
}

/// The file that a list defines, stated "from the start's inputs and the list
/// alone, by the layout and not by repeating the addition: the start's image with
/// N the number of traces, in slot k the start image's length plus B and D of all
/// traces before k, then the blocks and data one behind the other, and nothing
/// after the last D bytes". A list with a trace that no addition takes defines no
/// file: the first such trace's refusal (30 only for the maximum) is the answer.
pub fn file_of(
    order: u32,
    slots: u64,
    sheet: &[u8],
    traces: &[TraceGiven],
) -> Result<Vec<u8>, Refusal> {
    let start = start_image(order, slots, sheet)?;
    let order = order_of(order)?;
    let channels = list_has_channels(traces);
    let mut pointers = Vec::new();
    let mut blocks = Vec::new();
    for (k, trace) in traces.iter().enumerate() {
        refuse_if(k as u64 >= slots, Refusal::file(24, 0))?;
        let block = given_bytes(order, trace, channels)?;
        pointers.push(start.len() + blocks.len());
        blocks.extend(block);
        let length = start.len() + blocks.len();
        refuse_if(length > MAXIMUM_LENGTH, Refusal::file(30, 0))?;
    }
    let mut file = [start, blocks].concat();
    put_n(&mut file, order, traces.len() as u16);
    for (k, p) in pointers.into_iter().enumerate() {
        put_pointer(&mut file, order, k, p);
    }
    Ok(file)
}

/// B and D bytes of a trace of the list: rows 25 to 27, 35, 28 and 29.
fn given_bytes(
    order: Order,
    trace: &TraceGiven,
    channels: Option<bool>,
) -> Result<Vec<u8>, Refusal> {
    let area = area_of(&trace.sheet, order, &start_terminators())?;
    judge_sheet(&trace.sheet, channels)?;
    let (count, data) = match &trace.row {
        Row::Integers(row) => (row.len(), encode_integers(trace.code, order, row)?),
        Row::Bits(row) => (row.len(), encode_bits(trace.code, order, row)?),
    };
    Ok(trace_bytes(order, trace.code, count, &area, &data))
}

/// Whether the traces of a checked file have channel numbers, which all have or none;
/// `None` where there are no traces.
fn traces_have_channels(file: &File, buffer: &[u8]) -> Option<bool> {
    let first = file.traces.first()?;
    Some(channel_number(buffer, first).is_some())
}

/// The same of a list, by its first trace, which so is free to choose.
fn list_has_channels(traces: &[TraceGiven]) -> Option<bool> {
    let strings = sheet_strings(&traces.first()?.sheet).ok()?;
    Some(strings.iter().any(|s| s.keyword == CHANNEL_NUMBER))
}

/// The start's image: rows 31, 25, 26, 27. "It writes revision 1, M of 4 times
/// the slots, N=0, terminators 00 and 0A (length 1), zeros elsewhere, and the
/// area."
fn start_image(order: u32, slots: u64, sheet: &[u8]) -> Result<Vec<u8>, Refusal> {
    let order = order_of(order)?;
    refuse_if(!(1..=16_383).contains(&slots), Refusal::file(31, 0))?;
    let area = area_of(sheet, order, &start_terminators())?;
    let m = 4 * slots as usize;
    let mut image = vec![0; 32 + m];
    image[0..2].copy_from_slice(&bytes_of_u16(0x3A55, order));
    image[2..4].copy_from_slice(&bytes_of_u16(1, order));
    image[4..6].copy_from_slice(&bytes_of_u16(m as u16, order));
    image[8..11].copy_from_slice(&[1, 0x00, 0]);
    image[11..14].copy_from_slice(&[1, 0x0A, 0]);
    image.extend(area);
    Ok(image)
}

/// Row 31: "byte order (0 low first, 1 high first)".
fn order_of(order: u32) -> Result<Order, Refusal> {
    match order {
        0 => Ok(Order::Low),
        1 => Ok(Order::High),
        _ => Err(Refusal::file(31, 0)),
    }
}

/// "terminators 00 and 0A (length 1)"
fn start_terminators() -> Terminators {
    Terminators {
        string: vec![0x00],
        line: vec![0x0A],
    }
}

/// "An addition uses the file's order and terminators."
fn terminators_of(file: &File) -> Terminators {
    Terminators {
        string: file.string_terminator.clone(),
        line: file.line_terminator.clone(),
    }
}

/// "The trace block": 4422h, B, D, S, code, zeros to byte 31, the strings, and
/// behind them the data. The sizes fit, or row 30 has refused them.
fn trace_bytes(order: Order, code: u8, count: usize, area: &[u8], data: &[u8]) -> Vec<u8> {
    let mut bytes = vec![0; 32];
    let b = 32 + area.len();
    bytes[0..2].copy_from_slice(&bytes_of_u16(0x4422, order));
    bytes[2..4].copy_from_slice(&bytes_of_u16(b as u16, order));
    bytes[4..8].copy_from_slice(&bytes_of_u32(data.len() as u32, order));
    bytes[8..12].copy_from_slice(&bytes_of_u32(count as u32, order));
    bytes[12] = code;
    bytes.extend(area);
    bytes.extend(data);
    bytes
}

/// N, bytes 6-7.
fn put_n(file: &mut [u8], order: Order, n: u16) {
    file[6..8].copy_from_slice(&bytes_of_u16(n, order));
}

/// Slot k: 4 bytes at 32+4k.
fn put_pointer(file: &mut [u8], order: Order, k: usize, p: usize) {
    let slot = 32 + 4 * k;
    file[slot..slot + 4].copy_from_slice(&bytes_of_u32(p as u32, order));
}
