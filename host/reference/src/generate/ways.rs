//! The ways to break each row of the check, 1 to 17 and 34.

use super::channels::{another_sign, bad_channel, good_channel, KEYWORD};
use super::damage::{alone, bytes, shape, Change, Scope, Spot, Way};
use super::lay::{four, two, Laid};
use super::model::{may_repeat, random_text, AreaModel, End, Model, StringModel, TraceModel};
use super::rng::Rng;
use crate::check::{Trace, MAXIMUM_LENGTH};
use crate::strings::StringPlace;

/// Bytes written at `at`, refused in a part at a place.
fn put(at: usize, bytes: &[u8], part: i64, place: usize) -> Option<Change> {
    Some(Change {
        bytes: (at..).zip(bytes.iter().copied()).collect(),
        length: None,
        part,
        place,
    })
}

/// Bytes of the file block's fixed part, refused at their own place.
fn put_head(at: usize, bytes: &[u8]) -> Option<Change> {
    put(at, bytes, -1, at)
}

fn cut(length: usize, part: i64, place: usize) -> Option<Change> {
    Some(Change {
        bytes: Vec::new(),
        length: Some(length),
        part,
        place,
    })
}

/// Some trace: its index and block.
fn some_trace<'a>(rng: &mut Rng, laid: &'a Laid) -> Option<(usize, &'a Trace)> {
    let last = laid.file.traces.len().checked_sub(1)?;
    let k = rng.between(0, last);
    Some((k, &laid.file.traces[k]))
}

/// The last trace: its index and block.
fn last_trace(laid: &Laid) -> Option<(usize, &Trace)> {
    let k = laid.file.traces.len().checked_sub(1)?;
    Some((k, &laid.file.traces[k]))
}

/// Two bytes of some trace's block at p+2 and the like, refused there.
fn put_block_2(laid: &Laid, k: usize, at: usize, value: u16) -> Option<Change> {
    let place = laid.file.traces[k].p as usize + at;
    put(place, &two(value, laid.file.order), k as i64, place)
}

/// Four bytes of some trace's block, refused there.
fn put_block_4(laid: &Laid, k: usize, at: usize, value: u32) -> Option<Change> {
    let place = laid.file.traces[k].p as usize + at;
    put(place, &four(value, laid.file.order), k as i64, place)
}

/// Slot k, refused there.
fn put_slot(laid: &Laid, k: usize, p: u32) -> Option<Change> {
    let slot = 32 + 4 * k;
    put(slot, &four(p, laid.file.order), k as i64, slot)
}

/// Some string of some part.
fn some_string<'a>(
    rng: &mut Rng,
    laid: &'a Laid,
    wanted: fn(&Laid, &StringPlace) -> bool,
) -> Option<(i64, &'a StringPlace)> {
    let mut all = Vec::new();
    for part in laid.parts() {
        let strings = laid.strings(part).iter();
        all.extend(strings.filter(|s| wanted(laid, s)).map(|s| (part, s)));
    }
    (!all.is_empty()).then(|| rng.pick(&all))
}

fn any(_: &Laid, _: &StringPlace) -> bool {
    true
}

/// In files of older recorders in any letters.
fn is_note(laid: &Laid, string: &StringPlace) -> bool {
    laid.buffer[string.keyword.clone()].eq_ignore_ascii_case(b"NOTE")
}

fn is_no_note(laid: &Laid, string: &StringPlace) -> bool {
    !is_note(laid, string)
}

/// Some offset of some part, an end mark included: part, place and area's end.
fn some_offset(rng: &mut Rng, laid: &Laid) -> Option<(i64, usize, usize)> {
    let mut all = Vec::new();
    for part in laid.parts() {
        let area = laid.area(part);
        let mut at = area.start;
        for string in laid.strings(part) {
            all.push((part, string.keyword.start - 2, area.end));
            at = string.value.end + laid.file.string_terminator.len();
        }
        if at < area.end {
            all.push((part, at, area.end));
        }
    }
    (!all.is_empty()).then(|| rng.pick(&all))
}

/// A byte of some string changed, refused at its offset.
fn put_in_string(part: i64, string: &StringPlace, at: usize, bytes: &[u8]) -> Option<Change> {
    put(at, bytes, part, string.keyword.start - 2)
}

/// A place in the value whose byte is printable.
fn printable_place(rng: &mut Rng, laid: &Laid, string: &StringPlace) -> Option<usize> {
    let places: Vec<usize> = string
        .value
        .clone()
        .filter(|&i| laid.buffer[i] > 32)
        .collect();
    (!places.is_empty()).then(|| rng.pick(&places))
}

fn other_byte(rng: &mut Rng, byte: u8) -> u8 {
    byte ^ rng.between(1, 255) as u8
}

/// A character that no terminator may use.
fn no_terminator_character(rng: &mut Rng) -> u8 {
    let high = rng.between(32, 255) as u8;
    rng.pick(&[9, 32, 127, 255, high])
}

fn bad_terminator_length(rng: &mut Rng, place: usize) -> Option<Change> {
    let any = rng.between(3, 255) as u8;
    let length = rng.pick(&[0, 3, 255, any]);
    put_head(place, &[length])
}

fn bad_terminator_character(
    rng: &mut Rng,
    laid: &Laid,
    place: usize,
    index: usize,
) -> Option<Change> {
    let used = usize::from(laid.buffer[place]);
    let bad = no_terminator_character(rng);
    (index < used).then(|| put(place + 1 + index, &[bad], -1, place))?
}

/// The smallest multiple of 4 above a number.
fn next_multiple(number: usize) -> usize {
    (number / 4 + 1) * 4
}

/// Some part of the model with a string that is to be last: its area is given an
/// exact size.
fn last_string_to(rng: &mut Rng, model: &mut Model, remainder: usize) -> Option<i64> {
    let part = rng.between(0, model.traces.len()) as i64 - 1;
    lengthen_last(model, part, remainder)?;
    Some(part)
}

/// A part's area is given an exact size by lengthening the last value.
pub(super) fn lengthen_last(model: &mut Model, part: i64, remainder: usize) -> Option<()> {
    let string_terminator = model.string_terminator.clone();
    let line_terminator = model.line_terminator.clone();
    let area = model.area_mut(part);
    let last = area.strings.last_mut()?;
    if last.separators.is_empty() {
        last.separators.push(b' ');
    }
    while area.strings_size(&string_terminator, &line_terminator) % 4 != remainder {
        let last = area.strings.last_mut()?;
        last.lines.last_mut()?.push(b'x');
    }
    Some(())
}

/// Some part of the model and the index of a string of it that is no NOTE.
fn some_model_string(rng: &mut Rng, model: &mut Model) -> Option<(i64, usize)> {
    let part = rng.between(0, model.traces.len()) as i64 - 1;
    let strings = &model.area_mut(part).strings;
    let plain = strings.iter().filter(|s| s.keyword != b"NOTE").count();
    Some((part, rng.between(0, plain.checked_sub(1)?)))
}

/// Some part of the model, given a NOTE of these lines as its last string; the
/// part and the NOTE's index.
fn with_note(rng: &mut Rng, model: &mut Model, lines: &[&str]) -> (i64, usize) {
    let part = rng.between(0, model.traces.len()) as i64 - 1;
    let lines = lines.iter().map(|line| line.as_bytes().to_vec()).collect();
    let note = StringModel::note(rng, lines);
    let area = model.area_mut(part);
    area.strings.retain(|s| s.keyword != b"NOTE");
    area.strings.push(note);
    if let End::Nothing = area.end {
        area.end = End::Mark(Vec::new());
    }
    (part, area.strings.len() - 1)
}

/// Some part of the model, with strings of these keywords for its own; the part.
fn with_keywords(rng: &mut Rng, model: &mut Model, keywords: &[&str]) -> i64 {
    let part = rng.between(0, model.traces.len()) as i64 - 1;
    put_keywords(rng, model, part, keywords);
    part
}

fn put_keywords(rng: &mut Rng, model: &mut Model, part: i64, keywords: &[&str]) {
    let mut strings = Vec::new();
    for &keyword in keywords {
        let text = random_text(rng, true);
        strings.push(StringModel::new(rng, keyword.into(), vec![text]));
    }
    let end = End::Mark(Vec::new());
    *model.area_mut(part) = AreaModel { strings, end };
}

/// Whether a string is a trace's channel number with something in it; one of the file itself is
/// none.
fn is_channel(laid: &Laid, string: &StringPlace) -> bool {
    let traces = laid
        .file
        .traces
        .first()
        .map_or(laid.length, |t| t.p as usize);
    let of_trace = string.keyword.start > traces && !string.value.is_empty();
    of_trace && &laid.buffer[string.keyword.clone()] == KEYWORD
}

/// Bytes of some trace's channel number changed, refused at p+32.
fn put_in_channel(laid: &Laid, part: i64, at: usize, bytes: &[u8]) -> Option<Change> {
    put(at, bytes, part, laid.area(part).start)
}

/// Some trace of the model with this value for its channel number, where all have one.
fn with_value(rng: &mut Rng, model: &mut Model, value: Vec<u8>) -> Option<Spot> {
    let last = model.traces.len().checked_sub(1)?;
    let k = rng.between(0, last);
    model.number_traces(rng);
    model.traces[k].area.put_channel(rng, value);
    Some(Spot::AreaStart(k as i64))
}

/// Where all have a channel number, traces from this on to that one lose theirs.
fn without_some(rng: &mut Rng, model: &mut Model, first: usize, last: usize) -> Option<Spot> {
    model.number_traces(rng);
    for trace in model.traces.get_mut(first..=last)? {
        trace.area.drop_channel();
    }
    Some(Spot::AreaStart(model.first_other()? as i64))
}

/// Where none has a channel number, some traces get one.
fn with_some(rng: &mut Rng, model: &mut Model, some: &[usize]) -> Option<Spot> {
    for trace in &mut model.traces {
        trace.area.drop_channel();
    }
    for &k in some {
        let value = good_channel(rng);
        model.traces.get_mut(k)?.area.put_channel(rng, value);
    }
    Some(Spot::AreaStart(model.first_other()? as i64))
}

/// Some trace behind the first.
fn later_trace(rng: &mut Rng, model: &Model) -> Option<usize> {
    let last = model.traces.len().checked_sub(1)?;
    (last > 0).then(|| rng.between(1, last))
}

/// A file of twelve traces out of one that has some.
fn make_twelve(rng: &mut Rng, model: &mut Model) -> Option<()> {
    let there = model.traces.len();
    (there > 0).then_some(())?;
    model.traces.truncate(12);
    model
        .traces
        .extend((there..12).map(|_| TraceModel::random(rng)));
    model.slots = model.slots.max(12);
    model
        .spare_slots
        .truncate(4 * (usize::from(model.slots) - 12));
    Some(())
}

/// Every way named in the table of document 01, row by row, and in document 02, §7.
pub const WAYS: &[Way] = &[
    alone(1, "length under 32", |rng, _| {
        cut(rng.between(0, 31), -1, 0)
    }),
    alone(1, "length over the buffer", |rng, laid| {
        cut(laid.buffer.len() + rng.between(1, 100), -1, 0)
    }),
    alone(1, "length over the maximum", |rng, _| {
        let over = rng.pick(&[MAXIMUM_LENGTH + 1, MAXIMUM_LENGTH * 2, usize::MAX]);
        cut(over, -1, 0)
    }),
    bytes(2, "first two bytes", |rng, _| {
        let pairs = [[0, 0], [0x55, 0x55], [0x3A, 0x3A], [0x55, 0], [0, 0x3A]];
        put_head(0, &rng.pick(&pairs))
    }),
    bytes(2, "one of the first two bytes", |rng, laid| {
        let at = rng.between(0, 1);
        let byte = other_byte(rng, laid.buffer[at]);
        put(at, &[byte], -1, 0)
    }),
    bytes(3, "revision", |rng, laid| {
        let any = rng.between(2, 65_535) as u16;
        let revision = rng.pick(&[0, 2, 256, 257, any]);
        put_head(2, &two(revision, laid.file.order))
    }),
    bytes(4, "M under 4", |rng, laid| {
        put_head(4, &two(rng.between(0, 3) as u16, laid.file.order))
    }),
    bytes(4, "M no multiple of 4", |rng, laid| {
        let m = laid.file.m + rng.between(1, 3) as u16;
        put_head(4, &two(m, laid.file.order))
    }),
    alone(5, "no traces", |_, laid| {
        (laid.file.n > 0).then(|| put_head(6, &[0, 0]))?
    })
    .only(Scope::Reading),
    bytes(5, "more traces than slots", |rng, laid| {
        let n = laid.file.m / 4 + rng.between(1, 3) as u16;
        put_head(6, &two(rng.pick(&[n, n, 65_535]), laid.file.order))
    }),
    bytes(6, "string terminator's length", |rng, _| {
        bad_terminator_length(rng, 8)
    }),
    bytes(6, "string terminator's first character", |rng, laid| {
        bad_terminator_character(rng, laid, 8, 0)
    }),
    bytes(6, "string terminator's second character", |rng, laid| {
        bad_terminator_character(rng, laid, 8, 1)
    }),
    bytes(6, "line terminator's length", |rng, _| {
        bad_terminator_length(rng, 11)
    }),
    bytes(6, "line terminator's first character", |rng, laid| {
        bad_terminator_character(rng, laid, 11, 0)
    }),
    bytes(6, "line terminator's second character", |rng, laid| {
        bad_terminator_character(rng, laid, 11, 1)
    }),
    bytes(6, "terminators sharing a character", |rng, laid| {
        let shared = rng.pick(&laid.file.string_terminator);
        let index = rng.between(0, laid.file.line_terminator.len() - 1);
        put(12 + index, &[shared], -1, 11)
    }),
    alone(7, "cut inside the pointer room", |rng, laid| {
        cut(rng.between(32, 31 + usize::from(laid.file.m)), -1, 4)
    }),
    alone(7, "M past the end", |_, laid| {
        let m = u16::try_from(next_multiple(laid.length - 32)).ok()?;
        put_head(4, &two(m, laid.file.order))
    }),
    bytes(8, "pointer no multiple of 4", |rng, laid| {
        let (k, trace) = some_trace(rng, laid)?;
        put_slot(laid, k, trace.p + rng.between(1, 3) as u32)
    }),
    bytes(8, "pointer before the previous end", |rng, laid| {
        let (k, _) = some_trace(rng, laid)?;
        let end = laid.previous_end(k);
        let back = rng.between(1, end / 4);
        put_slot(laid, k, (end - 4 * rng.pick(&[1, back])) as u32)
    }),
    bytes(8, "pointer to the previous trace", |rng, laid| {
        let (k, _) = some_trace(rng, laid)?;
        let previous = laid.file.traces.get(k.checked_sub(1)?)?;
        put_slot(laid, k, previous.p)
    }),
    bytes(8, "p+32 past the end", |rng, laid| {
        let (k, _) = some_trace(rng, laid)?;
        let nearest = next_multiple(laid.length - 32) as u32;
        let far = rng.pick(&[0xFFFF_FFFC, 0xFFFF_FFE0, 0x8000_0000]);
        put_slot(laid, k, rng.pick(&[nearest, far]))
    }),
    alone(8, "cut before p+32", |rng, laid| {
        let (k, trace) = last_trace(laid)?;
        let length = rng.between(laid.previous_end(k), trace.p as usize + 31);
        cut(length, k as i64, 32 + 4 * k)
    }),
    bytes(9, "4422h in the other order", |rng, laid| {
        let (k, _) = some_trace(rng, laid)?;
        put_block_2(laid, k, 0, 0x2244)
    }),
    bytes(9, "one byte of 4422h", |rng, laid| {
        let (k, trace) = some_trace(rng, laid)?;
        let at = trace.p as usize + rng.between(0, 1);
        let byte = other_byte(rng, laid.buffer[at]);
        put(at, &[byte], k as i64, trace.p as usize)
    }),
    bytes(10, "B under 32", |rng, laid| {
        let (k, _) = some_trace(rng, laid)?;
        put_block_2(laid, k, 2, 4 * rng.between(0, 7) as u16)
    }),
    bytes(10, "B no multiple of 4", |rng, laid| {
        let (k, trace) = some_trace(rng, laid)?;
        put_block_2(laid, k, 2, trace.b + rng.between(1, 3) as u16)
    }),
    bytes(10, "B past the end", |rng, laid| {
        let (k, trace) = some_trace(rng, laid)?;
        let nearest = u16::try_from(next_multiple(laid.length - trace.p as usize)).ok()?;
        put_block_2(laid, k, 2, rng.pick(&[nearest, 65_532]))
    }),
    alone(10, "cut inside the block", |rng, laid| {
        let (k, trace) = last_trace(laid)?;
        let (p, b) = (trace.p as usize, usize::from(trace.b));
        (b > 32).then(|| cut(rng.between(p + 32, p + b - 1), k as i64, p + 2))?
    }),
    bytes(11, "D no multiple of 4", |rng, laid| {
        let (k, trace) = some_trace(rng, laid)?;
        put_block_4(laid, k, 4, trace.d + rng.between(1, 3) as u32)
    }),
    bytes(11, "D past the end", |rng, laid| {
        let (k, trace) = some_trace(rng, laid)?;
        let start = trace.p + u32::from(trace.b);
        let nearest = next_multiple(laid.length - start as usize) as u32;
        // 2^32 - (p+B): a sum modulo 2^32 would be 0.
        put_block_4(
            laid,
            k,
            4,
            rng.pick(&[nearest, 0xFFFF_FFFC, start.wrapping_neg()]),
        )
    }),
    alone(11, "cut inside the data", |rng, laid| {
        let (k, trace) = last_trace(laid)?;
        let p = trace.p as usize;
        let start = p + usize::from(trace.b);
        let d = trace.d as usize;
        (d > 0).then(|| cut(rng.between(start, start + d - 1), k as i64, p + 4))?
    }),
    bytes(12, "format code", |rng, laid| {
        let (k, trace) = some_trace(rng, laid)?;
        let at = trace.p as usize + 12;
        put(at, &[rng.pick(&[0, 6, 7, 128, 255])], k as i64, at)
    }),
    bytes(13, "S no multiple of 4 under code 3", |rng, laid| {
        let (k, trace) = some_trace(rng, laid)?;
        let below = trace.s.saturating_sub(rng.between(1, 3) as u32);
        let s = rng.pick(&[trace.s + 1, trace.s + 3, below]);
        (trace.code == 3 && s % 4 != 0).then(|| put_block_4(laid, k, 8, s))?
    }),
    bytes(13, "needed bytes over D", |rng, laid| {
        let (k, trace) = some_trace(rng, laid)?;
        // The smallest count that is too many, and one whose needed bytes are
        // next to nothing modulo 2^32.
        let (smallest, wrapping) = match trace.code {
            1 => (trace.d / 2 + 1, 0x8000_0000),
            3 => (4 * (trace.d / 10 + 1), 1_717_986_920),
            5 => (trace.d / 8 + 1, 0x2000_0000),
            _ => (trace.d / 4 + 1, 0x4000_0000),
        };
        put_block_4(laid, k, 8, rng.pick(&[smallest, wrapping, 0xFFFF_FFFC]))
    }),
    bytes(14, "offset too small for a keyword", |rng, laid| {
        let (part, at, _) = some_offset(rng, laid)?;
        let most = 2 + laid.file.string_terminator.len();
        let any = rng.between(1, most);
        let offset = rng.pick(&[1, most, any]);
        put(at, &two(offset as u16, laid.file.order), part, at)
    }),
    bytes(14, "offset past the area", |rng, laid| {
        let (part, at, end) = some_offset(rng, laid)?;
        let nearest = u16::try_from(end - at + 1).ok()?;
        let offset = rng.pick(&[nearest, 65_535]);
        put(at, &two(offset, laid.file.order), part, at)
    }),
    shape(14, "no end mark", |rng, model| {
        let part = last_string_to(rng, model, 0)?;
        model.area_mut(part).end = End::Nothing;
        Some(Spot::AreaEnd(part))
    })
    .forgiven(),
    shape(14, "one byte left", |rng, model| {
        let part = last_string_to(rng, model, 3)?;
        model.area_mut(part).end = End::Byte(rng.byte());
        Some(Spot::AreaLastByte(part))
    }),
    shape(14, "an area of one byte", |rng, model| {
        // Areas of files are multiples of 4.
        model.area.strings.clear();
        model.area.end = End::Byte(rng.byte());
        model.traces.is_empty().then_some(Spot::AreaLastByte(-1))
    })
    .only(Scope::Image),
    bytes(15, "one byte of the terminator", |rng, laid| {
        let (part, string) = some_string(rng, laid, any)?;
        let index = rng.between(0, laid.file.string_terminator.len() - 1);
        let at = string.value.end + index;
        let byte = other_byte(rng, laid.buffer[at]);
        put_in_string(part, string, at, &[byte])
    }),
    bytes(15, "terminator reversed", |rng, laid| {
        let (part, string) = some_string(rng, laid, any)?;
        let mut terminator = laid.file.string_terminator.clone();
        terminator.reverse();
        let differs = terminator != laid.file.string_terminator;
        differs.then(|| put_in_string(part, string, string.value.end, &terminator))?
    }),
    bytes(16, "lower case in a keyword", |rng, laid| {
        let (part, string) = some_string(rng, laid, any)?;
        let at = rng.between(string.keyword.start, string.keyword.end - 1);
        put_in_string(part, string, at, &[rng.between(97, 122) as u8])
    })
    .forgiven(),
    bytes(16, "no ASCII or no print in a keyword", |rng, laid| {
        let (part, string) = some_string(rng, laid, any)?;
        let at = rng.between(string.keyword.start, string.keyword.end - 1);
        let high = rng.between(127, 255) as u8;
        let low = rng.pick(&[0, 1, 8, 10, 13, 31]);
        put_in_string(part, string, at, &[rng.pick(&[high, low, 127])])
    }),
    bytes(16, "empty keyword", |rng, laid| {
        let (part, string) = some_string(rng, laid, any)?;
        put_in_string(part, string, string.keyword.start, &[rng.pick(b" \t")])
    }),
    bytes(16, "forbidden character in a value", |rng, laid| {
        let (part, string) = some_string(rng, laid, any)?;
        let at = printable_place(rng, laid, string)?;
        let high = rng.between(127, 255) as u8;
        let low = rng.between(0, 31) as u8;
        let bad = rng.pick(&[high, low, 127, laid.file.string_terminator[0]]);
        let allowed = bad == 9 || laid.file.line_terminator.contains(&bad);
        (!allowed).then(|| put_in_string(part, string, at, &[bad]))?
    }),
    bytes(16, "line terminator in no NOTE", |rng, laid| {
        let (part, string) = some_string(rng, laid, is_no_note)?;
        let at = printable_place(rng, laid, string)?;
        let line = &laid.file.line_terminator;
        let fits = at + line.len() <= string.value.end;
        fits.then(|| put_in_string(part, string, at, line))?
    }),
    shape(16, "lines in a neighbour of NOTE", |rng, model| {
        let near = ["N", "NOT", "NOTE0", "NOTES", "NOTE_", "NOTENOTE"];
        let keyword = rng.pick(&near);
        let part = with_keywords(rng, model, &[]);
        let lines = ["first", "second"].map(|line| line.as_bytes().to_vec());
        let string = StringModel::new(rng, keyword.into(), lines.to_vec());
        model.area_mut(part).strings.push(string);
        Some(Spot::String(part, 0))
    }),
    bytes(16, "half a line terminator in a NOTE", |rng, laid| {
        let (part, string) = some_string(rng, laid, is_note)?;
        let at = printable_place(rng, laid, string)?;
        let line = &laid.file.line_terminator;
        (line.len() == 2).then(|| put_in_string(part, string, at, &[rng.pick(line)]))?
    }),
    shape(16, "line terminator reversed in a NOTE", |rng, model| {
        let mut reversed = model.line_terminator.clone();
        reversed.reverse();
        let differs = reversed != model.line_terminator;
        let (part, i) = with_note(rng, model, &["first ", "second"]);
        let lines = &mut model.area_mut(part).strings[i].lines;
        lines[0].extend(reversed);
        differs.then_some(Spot::String(part, i))
    }),
    shape(16, "NOTE followed by a line terminator", |rng, model| {
        let (part, i) = with_note(rng, model, &["", "second"]);
        model.area_mut(part).strings[i].separators.clear();
        Some(Spot::String(part, i))
    }),
    shape(17, "two strings exchanged", |rng, model| {
        let (part, i) = some_model_string(rng, model)?;
        let strings = &mut model.area_mut(part).strings;
        let keyword = &strings[i].keyword;
        let other_is_next = |s: &StringModel| s.keyword != b"NOTE" && s.keyword != *keyword;
        let next_is_plain = strings.get(i + 1).is_some_and(other_is_next);
        next_is_plain.then(|| strings.swap(i, i + 1))?;
        Some(Spot::String(part, i + 1))
    }),
    shape(17, "a keyword twice", |rng, model| {
        let (part, i) = some_model_string(rng, model)?;
        let strings = &mut model.area_mut(part).strings;
        let once = !may_repeat(&strings[i].keyword);
        once.then(|| strings.insert(i, strings[i].clone()))?;
        Some(Spot::String(part, i + 1))
    }),
    shape(17, "a repeat that does not run", |rng, model| {
        let keywords: &[&str] = rng.pick(&[
            &["RECEIVER_GEOMETRY", "SHOT", "RECEIVER_GEOMETRY"],
            &[
                "RECEIVER_GEOMETRY",
                "RECEIVER_GEOMETRY",
                "SOURCE_GEOMETRY",
                "RECEIVER_GEOMETRY",
            ],
            &[
                "RECEIVER_GEOMETRY",
                "RECEIVER_GEOMETRYS",
                "RECEIVER_GEOMETRY",
            ],
            &[
                "SOURCE_GEOMETRY",
                "SOURCE_GEOMETRY",
                "SOURCE_LOCATION",
                "SOURCE_GEOMETRY",
            ],
        ]);
        let part = with_keywords(rng, model, keywords);
        Some(Spot::String(part, keywords.len() - 1))
    }),
    shape(17, "a neighbour of what may repeat, twice", |rng, model| {
        let near = [
            "RECEIVER_LOCATION",
            "RECEIVER_GEOMETR",
            "SOURCE_LOCATION",
            "SOURCE_GEOMETRY1",
        ];
        let keyword = rng.pick(&near);
        let part = with_keywords(rng, model, &["RECEIVER", keyword, keyword]);
        Some(Spot::String(part, 2))
    }),
    shape(17, "order behind a bad channel number", |rng, model| {
        // 34 comes "after 17 within each trace".
        let last = model.traces.len().checked_sub(1)?;
        let part = rng.between(0, last) as i64;
        put_keywords(rng, model, part, &["STACK", "DELAY"]);
        let value = bad_channel(rng);
        model.area_mut(part).put_channel(rng, value);
        Some(Spot::String(part, 2))
    }),
    shape(17, "a prefix behind the longer keyword", |rng, model| {
        let (part, i) = some_model_string(rng, model)?;
        let strings = &mut model.area_mut(part).strings;
        strings.insert(i, strings[i].clone());
        strings[i].keyword.push(b'X');
        Some(Spot::String(part, i + 1))
    }),
    shape(17, "a string behind NOTE", |rng, model| {
        let (part, i) = with_note(rng, model, &["first", "second"]);
        let keyword = rng.pick(&["ZZZ", "NOTES", "A", "~"]);
        let string = StringModel::new(rng, keyword.into(), vec![b"1".to_vec()]);
        model.area_mut(part).strings.push(string);
        Some(Spot::String(part, i + 1))
    }),
    shape(17, "NOTE twice", |rng, model| {
        let (part, i) = with_note(rng, model, &["only"]);
        let strings = &mut model.area_mut(part).strings;
        strings.push(strings[i].clone());
        Some(Spot::String(part, i + 1))
    }),
    bytes(34, "a sign in a channel number", |rng, laid| {
        let (part, string) = some_string(rng, laid, is_channel)?;
        let at = rng.between(string.value.start, string.value.end - 1);
        put_in_channel(laid, part, at, &[another_sign(rng)])
    }),
    bytes(34, "a channel number of zeros", |rng, laid| {
        let (part, string) = some_string(rng, laid, is_channel)?;
        let zeros = vec![b'0'; string.value.len()];
        put_in_channel(laid, part, string.value.start, &zeros)
    }),
    bytes(34, "a channel number over 32,767", |rng, laid| {
        let (part, string) = some_string(rng, laid, is_channel)?;
        let digits = string.value.len();
        let number = rng.pick(&[32_768, 32_769, 65_537, 99_999]);
        let value = format!("{number:0>digits$}");
        (digits >= 5).then(|| put_in_channel(laid, part, string.value.start, value.as_bytes()))?
    }),
    shape(34, "any value that is no channel number", |rng, model| {
        let value = bad_channel(rng);
        with_value(rng, model, value)
    }),
    shape(34, "an empty channel number", |rng, model| {
        with_value(rng, model, Vec::new())
    }),
    shape(34, "32,768", |rng, model| {
        with_value(rng, model, b"32768".to_vec())
    }),
    shape(34, "a channel number with a point", |rng, model| {
        let value = [&good_channel(rng)[..], b".0"].concat();
        with_value(rng, model, value)
    }),
    shape(34, "a channel number with E", |rng, model| {
        let value = [&good_channel(rng)[..], b"E0"].concat();
        with_value(rng, model, value)
    }),
    shape(34, "a channel number of 19 digits", |rng, model| {
        with_value(rng, model, b"0000000000000000001".to_vec())
    }),
    shape(34, "a trace without, trace 0 with", |rng, model| {
        let k = later_trace(rng, model)?;
        without_some(rng, model, k, k)
    }),
    shape(34, "trace 0 alone without", |rng, model| {
        without_some(rng, model, 0, 0)
    }),
    shape(34, "the last traces without", |rng, model| {
        let k = later_trace(rng, model)?;
        without_some(rng, model, k, model.traces.len() - 1)
    }),
    shape(34, "a trace with, trace 0 without", |rng, model| {
        let k = later_trace(rng, model)?;
        with_some(rng, model, &[k])
    }),
    shape(34, "trace 0 alone with", |rng, model| {
        with_some(rng, model, &[0])
    }),
    shape(34, "three traces of twelve", |rng, model| {
        make_twelve(rng, model)?;
        let first = rng.between(0, 9);
        let second = rng.between(first + 1, 10);
        let third = rng.between(second + 1, 11);
        with_some(rng, model, &[first, second, third])
    }),
];
