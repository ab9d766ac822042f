//! Random cases. The same numbers give the same case on every machine.

use crate::call::Forged;
use crate::case::{Base, Case, Given, Kind, Start};
use crate::expected::narrow;
use seg2_reference as reference;
use seg2_reference::generate::lay::two;
use seg2_reference::generate::model::{AreaModel, End, SamplesModel, StringModel};
use seg2_reference::generate::writing::row_for;
use seg2_reference::generate::{
    bad_channel, channel_for, damaged, forged_number, good_channel, good_sheet, location_case,
    mutated, mutated_old, number_case, old_case, quick_case, several_damages, sheet_case,
    sheet_of_a_start, with_channel, Model, Rng, Way, WAYS,
};
use seg2_reference::Order;

/// What draws a case.
pub type Draw = fn(&mut Rng) -> Case;

/// Every kind of case, by its name.
pub const KINDS: &[(&str, Draw)] = &[
    ("valid", valid),
    ("numbers", numbers),
    ("long rows", long_rows),
    ("damaged", damaged_in_any_way),
    ("several damages", damaged_twice),
    ("mutated", mutated_bytes),
    ("random bytes", random_bytes),
    ("image", image),
    ("start", started),
    ("addition", added),
    ("addition to a broken file", added_to_broken),
    ("growing from a start", grown),
    ("growing from another maker's file", grown_from_image),
    ("typed text", typed),
    ("forged number", forged),
    ("one trace", one_trace),
    ("old file", old_file),
];

/// The generator of one case of a run: a case can be drawn without those before it.
pub fn rng_of(seed: u64, case: u64) -> Rng {
    let mut rng = Rng::new(seed);
    let start = rng.bits();
    Rng::new(start.wrapping_add(case.wrapping_mul(0xD1B5_4A32_D192_ED03)))
}

fn case(rng: &mut Rng, kind: Kind) -> Case {
    let seed = rng.bits();
    Case { seed, kind }
}

fn asked(rng: &mut Rng, buffer: Vec<u8>, length: usize) -> Case {
    case(rng, Kind::Asked { buffer, length })
}

fn asked_of(rng: &mut Rng, model: Model) -> Case {
    let laid = model.lay();
    asked(rng, laid.buffer, laid.length)
}

/// Files that keep the rules, with all their freedoms.
pub fn valid(rng: &mut Rng) -> Case {
    let model = Model::random(rng);
    asked_of(rng, model)
}

/// Values that are numbers and locations, or nearly; a byte changed once in four times.
pub fn numbers(rng: &mut Rng) -> Case {
    let laid = number_model(rng).lay();
    let (mut buffer, length) = (laid.buffer, laid.length);
    if rng.one_in(4) {
        mutate(rng, &mut buffer);
    }
    asked(rng, buffer, length)
}

fn number_model(rng: &mut Rng) -> Model {
    let mut model = Model::random(rng);
    model.traces.truncate(4);
    for part in -1..model.traces.len() as i64 {
        *model.area_mut(part) = number_area(rng);
    }
    if rng.one_in(2) {
        model.number_traces(rng);
    }
    model
}

fn number_area(rng: &mut Rng) -> AreaModel {
    let mut strings = Vec::new();
    for keyword in [
        "DELAY",
        "RECEIVER_GEOMETRY",
        "RECEIVER_GEOMETRY",
        "RECEIVER_LOCATION",
        "SOURCE_GEOMETRY",
        "SOURCE_GEOMETRY",
        "SOURCE_LOCATION",
        "STACK",
    ] {
        // A place is asked for as a location, and others now and then.
        let place = keyword.contains('_');
        let text = match place || rng.one_in(4) {
            true => location_case(rng).text,
            false => number_case(rng).text,
        };
        let allowed = |c: &u8| matches!(c, 32..=126 | 9);
        let text: Vec<u8> = text.into_iter().filter(allowed).collect();
        strings.push(StringModel::new(rng, keyword.into(), vec![text]));
    }
    let end = End::Mark(Vec::new());
    AreaModel { strings, end }
}

/// Rows long enough for every part of a loop that the compiler widens.
pub fn long_rows(rng: &mut Rng) -> Case {
    let mut model = Model::random(rng);
    model.traces.truncate(3);
    for trace in &mut model.traces {
        let count = rng.between(0, 150);
        let code = rng.between(1, 5);
        trace.samples = SamplesModel::random(rng, code, count);
    }
    asked_of(rng, model)
}

/// A file damaged in one named way.
pub fn damaged_by(rng: &mut Rng, way: &Way) -> Case {
    let broken = damaged(rng, way);
    asked(rng, broken.buffer, broken.length)
}

fn damaged_in_any_way(rng: &mut Rng) -> Case {
    let way = &WAYS[rng.between(0, WAYS.len() - 1)];
    damaged_by(rng, way)
}

/// Several damages: the first that is met answers.
pub fn damaged_twice(rng: &mut Rng) -> Case {
    let broken = several_damages(rng);
    asked(rng, broken.buffer, broken.length)
}

/// Bytes of a file changed, put in or taken out.
pub fn mutated_bytes(rng: &mut Rng) -> Case {
    let (buffer, length) = mutated(rng);
    asked(rng, buffer, length)
}

/// Files for the question of one trace: broken where it does not look as often as where it
/// does, with pointers in any order and traces inside others' data.
pub fn one_trace(rng: &mut Rng) -> Case {
    let quick = quick_case(rng);
    asked(rng, quick.buffer, quick.length)
}

/// Files of older recorders (document 02, §11): as they are, broken in every way, with any bytes
/// changed, and with values that are numbers.
pub fn old_file(rng: &mut Rng) -> Case {
    match rng.between(0, 7) {
        0 => {
            let (buffer, length) = mutated_old(rng);
            asked(rng, buffer, length)
        }
        1 | 2 => {
            let mut model = number_model(rng);
            model.age(rng);
            asked_of(rng, model)
        }
        _ => {
            let old = old_case(rng);
            asked(rng, old.buffer, old.length)
        }
    }
}

/// Any bytes; most begin as a file does, or nothing behind row 2 would be met.
pub fn random_bytes(rng: &mut Rng) -> Case {
    let size = rng.between(0, 300);
    let mut buffer = rng.junk(size);
    let order = rng.pick(&[Order::Low, Order::High]);
    if size >= 32 && !rng.one_in(5) {
        let m = 4 * rng.between(1, 4) as u16;
        let n = rng.between(1, 2) as u16;
        for (at, value) in [(0, 0x3A55), (2, 1), (4, m), (6, n)] {
            buffer[at..at + 2].copy_from_slice(&two(value, order));
        }
        buffer[8..14].copy_from_slice(&[1, 0, 0, 1, 10, 0]);
    }
    let near = rng.between(0, 400);
    let length = rng.pick(&[size, size, size, near]);
    asked(rng, buffer, length)
}

/// An image without traces: every question refuses it, by 5.
pub fn image(rng: &mut Rng) -> Case {
    let model = Model::image(rng);
    asked_of(rng, model)
}

fn mutate(rng: &mut Rng, bytes: &mut Vec<u8>) {
    if bytes.is_empty() {
        return;
    }
    let at = rng.between(0, bytes.len() - 1);
    match rng.between(0, 4) {
        0 => bytes[at] = rng.byte(),
        1 => bytes[at] ^= 1 << rng.between(0, 7),
        2 => bytes[at] = rng.pick(b"\n\t 0-.E,A"),
        3 => bytes.insert(at, rng.pick(b"\n\t a0-.E,A\0")),
        _ => drop(bytes.remove(at)),
    }
}

/// A trace's sheet for a file whose traces have channel numbers or have none (`None` where
/// it has no traces): most often the file takes it (document 02, §7).
fn trace_sheet(rng: &mut Rng, channels: Option<bool>) -> Vec<u8> {
    let sheet = sheet(rng);
    numbered(rng, sheet, channels)
}

/// The sheet with a channel number or without one, most often as the file's traces have it.
fn numbered(rng: &mut Rng, sheet: Vec<u8>, channels: Option<bool>) -> Vec<u8> {
    match channel_for(rng, channels).0 {
        Some(value) => with_channel(&sheet, &value),
        None => sheet,
    }
}

/// Good, broken, changed, and once in twenty times about as large as allowed.
fn sheet(rng: &mut Rng) -> Vec<u8> {
    match rng.between(0, 19) {
        0 => brimming_sheet(rng),
        1..=4 => sheet_case(rng).sheet,
        5..=7 => {
            let mut sheet = good_sheet(rng).sheet;
            mutate(rng, &mut sheet);
            sheet
        }
        8 => Vec::new(),
        _ => good_sheet(rng).sheet,
    }
}

/// A sheet whose area comes out at 65,500 bytes, a few less or a few more. With two
/// lines of a NOTE it depends on the line terminator, too.
fn brimming_sheet(rng: &mut Rng) -> Vec<u8> {
    // Offset, "A ", terminator of one or two bytes, end mark.
    let value = 65_500 - 2 - 2 - 1 - 2 + rng.between(0, 8) - 6;
    if rng.one_in(2) {
        return [b"A\t", &vec![b'x'; value][..], b"\n"].concat();
    }
    let first = rng.between(0, value - 20);
    let second = value - 3 - first - rng.between(0, 2);
    let lines = [first, second].map(|size| vec![b'y'; size]);
    [b"NOTE\t", &lines[0][..], b"\nNOTE\t", &lines[1], b"\n"].concat()
}

/// Room for so many bytes, more, one less, or much less.
fn room_for(rng: &mut Rng, length: usize) -> usize {
    match rng.between(0, 7) {
        0 => length - 1,
        1 => rng.between(0, length),
        _ => length + rng.pick(&[0, 0, 1, 3, 50]),
    }
}

/// A start with good and bad order, slots, sheet and room.
pub fn started(rng: &mut Rng) -> Case {
    let order = rng.pick(&[0, 1, 0, 1, 0, 1, 0, 1, 2, u32::MAX]);
    let slots = match rng.one_in(8) {
        true => rng.pick(&[0, 16_384, 65_537, u32::MAX]),
        false => rng.pick(&[1, 1, 2, 7, 50, 16_383]),
    };
    let sheet = sheet(rng);
    let sheet = sheet_of_a_start(rng, sheet);
    let mut trial = vec![0; 32 + 4 * 16_383 + 2 * sheet.len() + 8];
    let length = reference::start(&mut trial, order, slots.into(), &sheet);
    let room = room_for(rng, length.unwrap_or(200));
    let kind = Kind::Started {
        buffer: rng.junk(room),
        given: Start {
            order,
            slots,
            sheet,
        },
    };
    case(rng, kind)
}

/// A trace to add, to a file whose traces have channel numbers or have none: sheet, code and
/// row good, or one of them not.
fn given(rng: &mut Rng, channels: Option<bool>) -> Given {
    let good = rng.between(1, 5) as u32;
    let wrong = rng.pick(&[0, 1, 2, 3, 4, 5, 6, 7, 255, 256 + 1, 256 + 4, u32::MAX]);
    let count = match rng.one_in(4) {
        true => rng.between(0, 70),
        false => rng.pick(&[0, 1, 3, 4, 8, 12, 20]),
    };
    let count = match good == 3 && !rng.one_in(8) {
        true => count / 4 * 4,
        false => count,
    };
    let wild = rng.one_in(6);
    let row = row_for(rng, good as u8, count, wild);
    Given {
        sheet: trace_sheet(rng, channels),
        code: if rng.one_in(10) { wrong } else { good },
        row,
    }
}

/// The length after an addition, if there is room enough.
fn length_with(buffer: &[u8], length: usize, given: &Given) -> Option<usize> {
    let mut trial = buffer.to_vec();
    trial.resize(buffer.len() + 2 * given.sheet.len() + 1000, 0);
    let code = narrow(given.code);
    reference::add(&mut trial, length, &given.sheet, code, &given.row).ok()
}

/// An addition to a file or an image of any maker.
pub fn added(rng: &mut Rng) -> Case {
    let model = match rng.one_in(3) {
        true => Model::image(rng),
        false => Model::random(rng),
    };
    let laid = model.lay();
    let given = given(rng, model.traces_have_channels());
    let length = laid.length;
    let mut buffer = laid.buffer[..length].to_vec();
    let room = length_with(&buffer, length, &given).unwrap_or(length + 100);
    let room = room_for(rng, room).max(length);
    buffer.extend(rng.junk(room - length));
    let kind = Kind::Added {
        buffer,
        length,
        given,
    };
    case(rng, kind)
}

/// An addition to what keeps the rules no more, or never did, as old files: the rows of the
/// strict check come first.
pub fn added_to_broken(rng: &mut Rng) -> Case {
    let (mut buffer, length) = match rng.between(0, 4) {
        0 | 1 => mutated(rng),
        2 => {
            let old = old_case(rng);
            (old.buffer, old.length)
        }
        _ => {
            let way = &WAYS[rng.between(0, WAYS.len() - 1)];
            let broken = damaged(rng, way);
            (broken.buffer, broken.length)
        }
    };
    let more = rng.pick(&[0, 1000, 1000]);
    buffer.extend(rng.junk(more));
    let kind = Kind::Added {
        buffer,
        length,
        given: given(rng, None),
    };
    case(rng, kind)
}

/// A trace that most often can be added.
fn step(rng: &mut Rng, channels: bool) -> Given {
    let mut step = given(rng, Some(channels));
    if !rng.one_in(3) {
        let good = good_sheet(rng).sheet;
        step.sheet = numbered(rng, good, Some(channels));
    }
    step
}

/// Traces that most often have channel numbers as those have that are there. Where there
/// are none, the first that is taken chooses for the others, and may choose otherwise than
/// they do.
fn steps(rng: &mut Rng, channels: Option<bool>) -> Vec<Given> {
    let channels = channels.unwrap_or_else(|| rng.one_in(2));
    let count = rng.between(1, 7);
    (0..count).map(|_| step(rng, channels)).collect()
}

/// Most often room for all, sometimes only for some.
fn some_room(rng: &mut Rng) -> usize {
    match rng.one_in(4) {
        true => rng.between(0, 1500),
        false => 6000,
    }
}

/// A start and a list of additions, refused ones in between.
pub fn grown(rng: &mut Rng) -> Case {
    let sheet = good_sheet(rng).sheet;
    let start = Start {
        order: rng.between(0, 1) as u32,
        slots: rng.between(1, 7) as u32,
        sheet: sheet_of_a_start(rng, sheet),
    };
    let kind = Kind::Grown {
        base: Base::Start(start),
        room: some_room(rng),
        steps: steps(rng, None),
    };
    case(rng, kind)
}

/// The same on another maker's file or image.
pub fn grown_from_image(rng: &mut Rng) -> Case {
    let mut model = match rng.one_in(3) {
        true => Model::image(rng),
        false => Model::random(rng),
    };
    model.traces.truncate(5);
    let channels = model.traces_have_channels();
    if rng.one_in(8) {
        break_channels(rng, &mut model);
    }
    let laid = model.lay();
    let room = laid.length + some_room(rng);
    let kind = Kind::Grown {
        base: Base::Image {
            image: laid.buffer[..laid.length].to_vec(),
        },
        room,
        steps: steps(rng, channels),
    };
    case(rng, kind)
}

/// Some trace's channel number is bad, or only some of the traces have one: no addition
/// takes such a file.
fn break_channels(rng: &mut Rng, model: &mut Model) {
    let count = model.traces.len();
    if count == 0 {
        return;
    }
    let area = &mut model.traces[rng.between(0, count - 1)].area;
    let value = match (rng.one_in(2), area.channel()) {
        (true, _) => bad_channel(rng),
        (false, None) => good_channel(rng),
        (false, Some(_)) => return area.drop_channel(),
    };
    area.put_channel(rng, value);
}

/// What a user may type: most often a number, or nearly; sometimes any bytes.
pub fn typed(rng: &mut Rng) -> Case {
    let mut text = match rng.between(0, 9) {
        0 => {
            let size = rng.between(0, 40);
            rng.junk(size)
        }
        1 => location_case(rng).text,
        _ => number_case(rng).text,
    };
    if rng.one_in(4) {
        mutate(rng, &mut text);
    }
    case(rng, Kind::Typed { text })
}

/// A number to be written, most often one that can be. Any minus that is not 0 is one.
pub fn forged(rng: &mut Rng) -> Case {
    let number = forged_number(rng);
    let minus = rng.pick(&[1, 1, 2, 256, 1 << 31, u32::MAX]);
    let number = Forged::of(number, minus);
    case(rng, Kind::Forged { number })
}
