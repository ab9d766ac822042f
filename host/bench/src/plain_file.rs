//! The check of a file, a keyword's value, the samples of a trace and the addition of one
//! as plain Rust does them: the same rows in the same order, and the same answers.

use crate::plain;

/// Number, part and place.
pub type Refused = (u32, i32, usize);

const MOST: usize = 67_108_864;
const KEY: u8 = 1;
const VALUE: u8 = 2;
pub(crate) const BLANK: u8 = 4;
/// Of a keyword as the lenient reading takes it: small letters too.
const OLD_KEY: u8 = 8;

/// What a character may be used for.
const CLASS: [u8; 256] = {
    let mut class = [0; 256];
    let mut c = 0;
    while c < 256 {
        if c >= 33 && c <= 126 && !(c >= 97 && c <= 122) {
            class[c] |= KEY;
        }
        if c >= 33 && c <= 126 {
            class[c] |= OLD_KEY;
        }
        if c >= 32 && c <= 126 || c == 9 {
            class[c] |= VALUE;
        }
        if c == 32 || c == 9 {
            class[c] |= BLANK;
        }
        c += 1;
    }
    class
};

pub(crate) fn is(class: u8, c: u8) -> bool {
    CLASS[usize::from(c)] & class != 0
}

/// Whether all are value characters: sixteen at a time, without an end in between.
fn all_value(text: &[u8]) -> bool {
    let allowed = |all: bool, &c: &u8| all & ((c.wrapping_sub(32) < 95) | (c == 9));
    let chunks = text.chunks_exact(16);
    let rest = chunks.remainder();
    let mut chunks = chunks;
    chunks.all(|run| run.iter().fold(true, allowed)) && rest.iter().fold(true, allowed)
}

/// A checked file.
#[derive(Clone, Copy)]
pub struct Checked<'a> {
    pub(crate) file: &'a [u8],
    pub(crate) high: bool,
    pub(crate) m: usize,
    pub(crate) n: usize,
    pub(crate) string: &'a [u8],
    line: &'a [u8],
    /// Whether the traces have channel numbers, by trace 0.
    channels: bool,
}

pub(crate) fn two<const HIGH: bool>(bytes: [u8; 2]) -> usize {
    usize::from(match HIGH {
        true => u16::from_be_bytes(bytes),
        false => u16::from_le_bytes(bytes),
    })
}

fn four<const HIGH: bool>(bytes: [u8; 4]) -> usize {
    (match HIGH {
        true => u32::from_be_bytes(bytes),
        false => u32::from_le_bytes(bytes),
    }) as usize
}

/// The bytes at a place, as many as the array has; the place lies in the file.
fn at<const N: usize>(file: &[u8], place: usize) -> [u8; N] {
    file[place..place + N].try_into().unwrap_or([0; N])
}

/// Rows 1 to 17 and 34; `grow` also takes N=0.
pub fn check(buffer: &[u8], length: usize, grow: bool) -> Result<Checked<'_>, Refused> {
    check_in::<false>(buffer, length, grow)
}

/// Rows 1 to 16 as the lenient reading has them (document 02, section 11).
pub fn check_leniently(buffer: &[u8], length: usize) -> Result<Checked<'_>, Refused> {
    check_in::<true>(buffer, length, false)
}

/// The manner, LENIENT or not, is settled with the order before anything is read.
#[inline(always)]
fn check_in<const LENIENT: bool>(
    buffer: &[u8],
    length: usize,
    grow: bool,
) -> Result<Checked<'_>, Refused> {
    let file = image(buffer, length)?;
    match (file[0], file[1]) {
        (0x55, 0x3A) => checked::<false, LENIENT>(file, grow),
        (0x3A, 0x55) => checked::<true, LENIENT>(file, grow),
        _ => Err((2, -1, 0)),
    }
}

/// Row 1.
pub(crate) fn image(buffer: &[u8], length: usize) -> Result<&[u8], Refused> {
    if !(32..=MOST).contains(&length) || length > buffer.len() {
        return Err((1, -1, 0));
    }
    Ok(&buffer[..length])
}

fn checked<const HIGH: bool, const LENIENT: bool>(
    file: &[u8],
    grow: bool,
) -> Result<Checked<'_>, Refused> {
    let mut found = head::<HIGH>(file, grow)?;
    let start = 32 + found.m;
    if found.n == 0 {
        strings::<HIGH, LENIENT>(&found, -1, start, file.len())?;
        return Ok(found);
    }
    let first = pointer::<HIGH>(&found, 0, start)?;
    strings::<HIGH, LENIENT>(&found, -1, start, first)?;
    let mut end = start;
    for k in 0..found.n {
        end = trace::<HIGH, LENIENT>(&mut found, k, end)?;
    }
    Ok(found)
}

/// Rows 3 to 7.
pub(crate) fn head<const HIGH: bool>(file: &[u8], grow: bool) -> Result<Checked<'_>, Refused> {
    let fixed: [u8; 32] = at(file, 0);
    let word = |place: usize| two::<HIGH>([fixed[place], fixed[place + 1]]);
    let (m, n) = (word(4), word(6));
    if word(2) != 1 {
        return Err((3, -1, 2));
    }
    if m < 4 || m % 4 != 0 {
        return Err((4, -1, 4));
    }
    if n == 0 && !grow || n > m / 4 {
        return Err((5, -1, 6));
    }
    let string = terminator(file, 8).ok_or((6, -1, 8))?;
    let line = terminator(file, 11).ok_or((6, -1, 11))?;
    if line.iter().any(|c| string.contains(c)) {
        return Err((6, -1, 11));
    }
    if 32 + m > file.len() {
        return Err((7, -1, 4));
    }
    Ok(Checked {
        file,
        high: HIGH,
        m,
        n,
        string,
        line,
        channels: false,
    })
}

fn terminator(file: &[u8], place: usize) -> Option<&[u8]> {
    let size = usize::from(file[place]);
    if size != 1 && size != 2 {
        return None;
    }
    let used = &file[place + 1..place + 1 + size];
    used.iter().all(|&c| c <= 31 && c != 9).then_some(used)
}

/// Row 8, for what may stand from such an end on.
pub(crate) fn pointer<const HIGH: bool>(
    found: &Checked,
    k: usize,
    end: usize,
) -> Result<usize, Refused> {
    let slot = 32 + 4 * k;
    let p = four::<HIGH>(at(found.file, slot));
    match p % 4 == 0 && p >= end && p + 32 <= found.file.len() {
        true => Ok(p),
        false => Err((8, k as i32, slot)),
    }
}

/// Rows 8 to 17 and 34 of trace k; where it ends.
fn trace<const HIGH: bool, const LENIENT: bool>(
    found: &mut Checked,
    k: usize,
    end: usize,
) -> Result<usize, Refused> {
    let part = k as i32;
    let p = pointer::<HIGH>(found, k, end)?;
    let Fixed { b, d, .. } = fixed::<HIGH>(found.file, part, p)?;
    let channel = strings::<HIGH, LENIENT>(found, part, p + 32, p + b)?;
    if k == 0 {
        found.channels = channel.is_some();
    }
    if !LENIENT && !fits(channel, found.channels) {
        return Err((34, part, p + 32));
    }
    Ok(p + b + d)
}

/// What the fixed part of a block tells.
pub(crate) struct Fixed {
    pub b: usize,
    pub d: usize,
    pub s: usize,
    pub code: u8,
}

/// Rows 9 to 13 of the block at p.
#[inline(always)]
pub(crate) fn fixed<const HIGH: bool>(file: &[u8], part: i32, p: usize) -> Result<Fixed, Refused> {
    let fixed: [u8; 32] = at(file, p);
    let b = two::<HIGH>([fixed[2], fixed[3]]);
    let d = four::<HIGH>([fixed[4], fixed[5], fixed[6], fixed[7]]);
    let s = four::<HIGH>([fixed[8], fixed[9], fixed[10], fixed[11]]);
    if two::<HIGH>([fixed[0], fixed[1]]) != 0x4422 {
        return Err((9, part, p));
    }
    if b < 32 || b % 4 != 0 || p + b > file.len() {
        return Err((10, part, p + 2));
    }
    if d % 4 != 0 || p + b + d > file.len() {
        return Err((11, part, p + 4));
    }
    let code = fixed[12];
    let needed = match code {
        1 => 2 * s,
        2 | 4 => 4 * s,
        3 => 10 * s / 4,
        5 => 8 * s,
        _ => return Err((12, part, p + 12)),
    };
    if code == 3 && s % 4 != 0 || needed > d {
        return Err((13, part, p + 8));
    }
    Ok(Fixed { b, d, s, code })
}

const CHANNEL: &[u8] = b"CHANNEL_NUMBER";

/// Whether a trace has a good channel number or none, as the others have.
fn fits(channel: Option<&[u8]>, others: bool) -> bool {
    match channel {
        Some(value) => others && is_channel(value),
        None => !others,
    }
}

/// 1 to 32,767 in at most 18 digits.
fn is_channel(value: &[u8]) -> bool {
    let push = |number: u64, &c: &u8| match c.wrapping_sub(b'0') {
        digit @ 0..=9 => Some(10 * number + u64::from(digit)),
        _ => None,
    };
    let number = || value.iter().try_fold(0, push);
    value.len() <= 18 && number().is_some_and(|n| (1..=32_767).contains(&n))
}

/// Rows 14 to 17 of the area between two places; the value of its channel number, which the
/// lenient reading does not look for.
fn strings<'a, const HIGH: bool, const LENIENT: bool>(
    found: &Checked<'a>,
    part: i32,
    start: usize,
    end: usize,
) -> Result<Option<&'a [u8]>, Refused> {
    let mut channel = None;
    if start >= end {
        return Ok(channel);
    }
    let mut rest = &found.file[start..end];
    let mut previous: &[u8] = &[];
    loop {
        let place = end - rest.len();
        match next::<HIGH, LENIENT>(found, rest, previous) {
            Next::End => return Ok(channel),
            Next::Refused(number) => return Err((number, part, place)),
            Next::Text { key, value, behind } => {
                if !LENIENT && key == CHANNEL {
                    channel = Some(value);
                }
                previous = key;
                rest = behind;
            }
        }
    }
}

/// What stands at the start of the rest of an area.
pub(crate) enum Next<'a> {
    Text {
        key: &'a [u8],
        value: &'a [u8],
        behind: &'a [u8],
    },
    /// The end mark, or where the lenient reading needs none.
    End,
    Refused(u32),
}

/// Rows 14 to 17 of one string.
#[inline(always)]
pub(crate) fn next<'a, const HIGH: bool, const LENIENT: bool>(
    found: &Checked<'a>,
    rest: &'a [u8],
    previous: &[u8],
) -> Next<'a> {
    if LENIENT && rest.is_empty() {
        return Next::End;
    }
    let Some((&[a, b], _)) = rest.split_first_chunk() else {
        return Next::Refused(14);
    };
    let offset = two::<HIGH>([a, b]);
    if offset == 0 {
        return Next::End;
    }
    if offset < 3 + found.string.len() || offset > rest.len() {
        return Next::Refused(14);
    }
    let (whole, behind) = rest.split_at(offset);
    let Some(body) = whole[2..].strip_suffix(found.string) else {
        return Next::Refused(15);
    };
    let letter = if LENIENT { OLD_KEY } else { KEY };
    let letters = body.iter().position(|&c| !is(letter, c));
    let (key, after) = body.split_at(letters.unwrap_or(body.len()));
    if key.is_empty() || after.first().is_some_and(|&c| !is(BLANK, c)) {
        return Next::Refused(16);
    }
    let gap = after.iter().position(|&c| !is(BLANK, c));
    let value = &after[gap.unwrap_or(after.len())..];
    let note = match LENIENT {
        true => key.eq_ignore_ascii_case(b"NOTE"),
        false => key == b"NOTE",
    };
    let allowed = match note {
        true => all_lines(found.line, value),
        false => all_value(value),
    };
    if !allowed {
        return Next::Refused(16);
    }
    if LENIENT {
        return Next::Text { key, value, behind };
    }
    if !note && previous >= key && !again(previous, key) || previous == b"NOTE" {
        return Next::Refused(17);
    }
    Next::Text { key, value, behind }
}

/// Whether the keyword is the one before it, and may stand several times running.
fn again(previous: &[u8], key: &[u8]) -> bool {
    previous == key && (key == b"RECEIVER_GEOMETRY" || key == b"SOURCE_GEOMETRY")
}

/// Value characters and whole line terminators, whose characters are none of them.
fn all_lines(line: &[u8], mut value: &[u8]) -> bool {
    while let Some(end) = value.iter().position(|&c| !is(VALUE, c)) {
        match value[end..].strip_prefix(line) {
            Some(rest) => value = rest,
            None => return false,
        }
    }
    true
}

/// Start and size of a keyword's value; both 0 where it is absent.
pub fn value(
    buffer: &[u8],
    length: usize,
    part: i32,
    key: &[u8],
) -> Result<(usize, usize), Refused> {
    let found = check(buffer, length, false)?;
    let (start, end) = area(&found, part)?;
    let mut rest = &found.file[start..end];
    while let Some((&bytes, _)) = rest.split_first_chunk() {
        let offset = match found.high {
            true => two::<true>(bytes),
            false => two::<false>(bytes),
        };
        if offset == 0 {
            break;
        }
        let body = &rest[2..offset - found.string.len()];
        let letters = letters_of(body);
        if &body[..letters] == key {
            let from = value_in(body, letters);
            return Ok((end - rest.len() + 2 + from, body.len() - from));
        }
        rest = &rest[offset..];
    }
    Ok((0, 0))
}

/// How many letters the keyword of a checked string has.
#[inline(always)]
pub(crate) fn letters_of(body: &[u8]) -> usize {
    let blank = body.iter().position(|&c| is(BLANK, c));
    blank.unwrap_or(body.len())
}

/// Where its value begins.
#[inline(always)]
pub(crate) fn value_in(body: &[u8], letters: usize) -> usize {
    let gap = body[letters..].iter().position(|&c| !is(BLANK, c));
    gap.map_or(body.len(), |gap| letters + gap)
}

/// A number of 4 bytes in the file's own order.
fn long(found: &Checked, place: usize) -> usize {
    match found.high {
        true => four::<true>(at(found.file, place)),
        false => four::<false>(at(found.file, place)),
    }
}

/// Row 18, and where a trace's block stands, with its size.
fn block(found: &Checked, trace: i32) -> Result<(usize, usize), Refused> {
    match usize::try_from(trace) {
        Ok(k) if k < found.n => {
            let p = long(found, 32 + 4 * k);
            let size: [u8; 2] = at(found.file, p + 2);
            let b = match found.high {
                true => two::<true>(size),
                false => two::<false>(size),
            };
            Ok((p, b))
        }
        _ => Err((18, -1, 0)),
    }
}

/// Where the part's strings stand.
pub(crate) fn area(found: &Checked, part: i32) -> Result<(usize, usize), Refused> {
    if part == -1 {
        return Ok((32 + found.m, long(found, 32)));
    }
    block(found, part).map(|(p, b)| (p + 32, p + b))
}

/// The data block of a trace whose code is one of these, rows of whose samples have such
/// lengths: rows 1 to 17 and 34, 18, 33, 32; with its code.
pub(crate) fn data<'a>(
    found: &Checked<'a>,
    trace: i32,
    codes: std::ops::RangeInclusive<u8>,
    rows: [usize; 2],
) -> Result<(u8, &'a [u8]), Refused> {
    let (p, b) = block(found, trace)?;
    let code = found.file[p + 12];
    let (d, s) = (long(found, p + 4), long(found, p + 8));
    rows_fit(code, s, codes, rows)?;
    Ok((code, &found.file[p + b..p + b + d]))
}

/// Rows 33 and 32: a code that is one of these, and rows of exactly S elements.
#[inline(always)]
pub(crate) fn rows_fit(
    code: u8,
    s: usize,
    codes: std::ops::RangeInclusive<u8>,
    rows: [usize; 2],
) -> Result<(), Refused> {
    if !codes.contains(&code) {
        return Err((33, -1, 0));
    }
    match rows == [s, s] {
        true => Ok(()),
        false => Err((32, -1, 0)),
    }
}

/// The samples of a trace of codes 1 to 3.
pub fn integers(buffer: &[u8], length: usize, trace: i32, row: &mut [i32]) -> Result<(), Refused> {
    let found = check(buffer, length, false)?;
    let (code, data) = data(&found, trace, 1..=3, [row.len(); 2])?;
    plain::read_integers(code, data, found.high, row);
    Ok(())
}

/// The patterns of a trace of codes 4 and 5, and their classes.
pub fn bits(
    buffer: &[u8],
    length: usize,
    trace: i32,
    row: &mut [u64],
    classes: &mut [u8],
) -> Result<(), Refused> {
    let found = check(buffer, length, false)?;
    let (code, data) = data(&found, trace, 4..=5, [row.len(), classes.len()])?;
    plain::read_bits(code, data, found.high, row, classes);
    Ok(())
}

/// A trace of integers behind the image: rows 1 to 17 and 34, then 24 to 27, 35, 28 to 30.
pub fn add_integers(
    buffer: &mut [u8],
    length: usize,
    sheet: &[u8],
    code: u32,
    row: &[i32],
) -> Result<usize, Refused> {
    let samples = || {
        if !(1..=3).contains(&code) || code == 3 && row.len() % 4 != 0 {
            return Err((28, -1, 0));
        }
        match plain::first_outside(code as u8, row) {
            Some(index) => Err((29, -1, index)),
            None => Ok(()),
        }
    };
    let needed = match code {
        1 => 2 * row.len(),
        3 => 10 * (row.len() / 4),
        _ => 4 * row.len(),
    };
    let put = |high, part: &mut [u8]| plain::put_integers(code as u8, row, high, part);
    add(buffer, length, sheet, code, row.len(), samples, needed, put)
}

/// The same of bit patterns.
pub fn add_bits(
    buffer: &mut [u8],
    length: usize,
    sheet: &[u8],
    code: u32,
    row: &[u64],
) -> Result<usize, Refused> {
    let samples = || {
        if !(4..=5).contains(&code) {
            return Err((28, -1, 0));
        }
        match plain::first_wide(code as u8, row) {
            Some(index) => Err((29, -1, index)),
            None => Ok(()),
        }
    };
    let needed = if code == 4 { 4 } else { 8 } * row.len();
    let put = |high, part: &mut [u8]| plain::put_bits(code as u8, row, high, part);
    add(buffer, length, sheet, code, row.len(), samples, needed, put)
}

#[allow(clippy::too_many_arguments)]
fn add(
    buffer: &mut [u8],
    length: usize,
    sheet: &[u8],
    code: u32,
    count: usize,
    samples: impl Fn() -> Result<(), Refused>,
    needed: usize,
    put: impl Fn(bool, &mut [u8]) -> bool,
) -> Result<usize, Refused> {
    let found = check(buffer, length, true)?;
    let (high, n) = (found.high, found.n);
    if n >= found.m / 4 {
        return Err((24, -1, 0));
    }
    let (area, channel) = area_size(sheet, found.string.len(), found.line.len())?;
    // A first trace chooses.
    let others = if n == 0 {
        channel.is_some()
    } else {
        found.channels
    };
    if !fits(channel, others) {
        return Err((35, -1, 0));
    }
    samples()?;
    let data = needed.next_multiple_of(4);
    let p = length.next_multiple_of(4);
    let end = p + 32 + area + data;
    if end > buffer.len() || end > MOST {
        return Err((30, -1, 0));
    }
    // The terminators stand in the buffer that is written.
    let (mut string, mut line) = ([0; 2], [0; 2]);
    let (string_size, line_size) = (found.string.len(), found.line.len());
    string[..string_size].copy_from_slice(found.string);
    line[..line_size].copy_from_slice(found.line);

    buffer[length..p].fill(0);
    let part = &mut buffer[p..end];
    let sizes = [area, data, count];
    match high {
        true => put_block::<true>(part, sizes, code as u8),
        false => put_block::<false>(part, sizes, code as u8),
    }
    let strings = &mut part[32..32 + area];
    put_area(
        strings,
        high,
        &string[..string_size],
        &line[..line_size],
        sheet,
    );
    put(high, &mut part[32 + area..]);
    let slot = 32 + 4 * n;
    let (pointer, more) = (p as u32, n as u16 + 1);
    match high {
        true => {
            buffer[slot..slot + 4].copy_from_slice(&pointer.to_be_bytes());
            buffer[6..8].copy_from_slice(&more.to_be_bytes());
        }
        false => {
            buffer[slot..slot + 4].copy_from_slice(&pointer.to_le_bytes());
            buffer[6..8].copy_from_slice(&more.to_le_bytes());
        }
    }
    Ok(end)
}

fn put_block<const HIGH: bool>(part: &mut [u8], sizes: [usize; 3], code: u8) {
    let [area, data, count] = sizes;
    let two = |value: u16| match HIGH {
        true => value.to_be_bytes(),
        false => value.to_le_bytes(),
    };
    let four = |value: u32| match HIGH {
        true => value.to_be_bytes(),
        false => value.to_le_bytes(),
    };
    let block = &mut part[..32];
    block.fill(0);
    block[0..2].copy_from_slice(&two(0x4422));
    block[2..4].copy_from_slice(&two(32 + area as u16));
    block[4..8].copy_from_slice(&four(data as u32));
    block[8..12].copy_from_slice(&four(count as u32));
    block[12] = code;
}

/// A line's length and its keyword's.
fn line_of(rest: &[u8]) -> Option<(usize, usize)> {
    let length = rest.iter().position(|&c| c == b'\n')?;
    let letters = rest[..length].iter().position(|&c| !is(KEY, c))?;
    Some((length, letters))
}

/// Rows 25 to 27; the area's size, and the value of the sheet's channel number.
fn area_size(sheet: &[u8], string: usize, line: usize) -> Result<(usize, Option<&[u8]>), Refused> {
    let mut channel = None;
    let mut size = 2;
    let mut start = 0;
    let mut previous: &[u8] = &[];
    while start < sheet.len() {
        let rest = &sheet[start..];
        let Some((length, letters)) = line_of(rest) else {
            return Err((25, -1, start));
        };
        let (key, value) = (&rest[..letters], &rest[letters + 1..length]);
        let note = key == b"NOTE";
        let more = note && previous == b"NOTE";
        let plain = |all: bool, &c: &u8| all & (c.wrapping_sub(32) < 95);
        let good = letters > 0 && rest[letters] == 9 && value.iter().fold(true, plain);
        if !good || !more && value.first() == Some(&b' ') {
            return Err((25, -1, start));
        }
        if !more && (!note && previous >= key && !again(previous, key) || previous == b"NOTE") {
            return Err((26, -1, start));
        }
        size += match more {
            true => line + value.len(),
            false => 3 + letters + value.len() + string,
        };
        if key == CHANNEL {
            channel = Some(value);
        }
        previous = key;
        start += length + 1;
    }
    let size = size.next_multiple_of(4);
    match size > 65_500 {
        true => Err((27, -1, 0)),
        false => Ok((size, channel)),
    }
}

/// A good sheet's strings, the end mark and zeros.
fn put_area(part: &mut [u8], high: bool, string: &[u8], line: &[u8], sheet: &[u8]) {
    let mut to = 0;
    // Where a NOTE that goes on has its offset.
    let mut note = None;
    let mut start = 0;
    let mut put = |to: &mut usize, bytes: &[u8]| {
        part[*to..*to + bytes.len()].copy_from_slice(bytes);
        *to += bytes.len();
    };
    let offset = |size: usize| match high {
        true => (size as u16).to_be_bytes(),
        false => (size as u16).to_le_bytes(),
    };
    while let Some((length, letters)) = line_of(&sheet[start..]) {
        let text = &sheet[start..start + length];
        let (key, value) = (&text[..letters], &text[letters + 1..]);
        if note.is_some() {
            put(&mut to, line);
            put(&mut to, value);
        } else {
            if key == b"NOTE" {
                note = Some(to);
            }
            put(&mut to, &offset(3 + letters + value.len() + string.len()));
            put(&mut to, key);
            put(&mut to, b" ");
            put(&mut to, value);
            if note.is_none() {
                put(&mut to, string);
            }
        }
        start += length + 1;
    }
    if let Some(mut at) = note {
        put(&mut to, string);
        let size = to - at;
        put(&mut at, &offset(size));
    }
    part[to..].fill(0);
}
