//! Samples through the face, both ways: document 01's worked values, and traces with any
//! data block, code and count beside the reference; rows added to a started file beside
//! the reference's addition.

use seg2::{calls, raw};
use seg2_reference::generate::{plain_file, PlainTrace, Rng};
use seg2_reference::samples::{encode_bits, encode_integers, needed_bytes};
use seg2_reference::worked::{
    Block, CODES_1_AND_2, CODE_3, CODE_3_KEPT, CODE_3_TOO_LARGE, CODE_3_WRITTEN,
};
use seg2_reference::{self as reference, Order, Refusal};

const ORDERS: [Order; 2] = [Order::Low, Order::High];

/// A file with one trace of these samples.
fn file(order: Order, code: u8, count: usize, data: &[u8]) -> Vec<u8> {
    let trace = PlainTrace {
        strings: &[b"STACK 1"],
        code,
        count: count as u32,
        data,
    };
    plain_file(order, &[b"UNITS METERS"], &[trace])
}

/// A block with what it wants to a multiple of 4, which D is: those bytes are ignored.
fn filled(block: &[u8]) -> Vec<u8> {
    let mut data = block.to_vec();
    data.resize(block.len().next_multiple_of(4), 0xEE);
    data
}

fn verdict(answer: Result<(), Refusal>) -> raw::Verdict {
    let (number, part, place) = match answer {
        Ok(()) => (0, -1, 0),
        Err(r) => (u32::from(r.number), r.part as i32, r.place as usize),
    };
    raw::Verdict {
        number,
        part,
        place,
    }
}

/// What an addition answers: the new length, or a refusal.
fn added(answer: Result<usize, Refusal>) -> raw::Length {
    let told = verdict(answer.map(|_| ()));
    raw::Length {
        number: told.number,
        part: told.part,
        place: told.place,
        length: answer.unwrap_or(0),
    }
}

/// Any bytes, or those of the ends of the number ranges.
fn random_block(rng: &mut Rng, length: usize) -> Vec<u8> {
    let ends = rng.one_in(3);
    (0..length)
        .map(|_| match ends {
            true => rng.pick(&[0x00, 0x00, 0xFF, 0x7F, 0x80, 0x01, 0xFE, 0xF0, 0xC0]),
            false => rng.byte(),
        })
        .collect()
}

/// A length near what so many samples need: most often a multiple of 4, as D has to be.
fn near(rng: &mut Rng, code: u8, count: usize) -> usize {
    let needed = needed_bytes(code, count as u64).unwrap_or(40) as usize;
    let length = (needed + rng.pick(&[0, 0, 0, 1, 2, 3, 4, 9]))
        .saturating_sub(rng.pick(&[0, 0, 0, 1, 2, 9]));
    match rng.one_in(8) {
        true => length,
        false => length.next_multiple_of(4),
    }
}

/// A count, and most often a row of that length.
fn row_length(rng: &mut Rng, count: usize) -> usize {
    match rng.one_in(8) {
        true => rng.between(0, 40),
        false => count,
    }
}

fn is_read(&(code, order, block, samples): &Block) {
    let bytes = file(order, code, samples.len(), &filled(block));
    let mut row = vec![77; samples.len()];
    let answer = calls::integers(&bytes, bytes.len(), 0, &mut row);
    assert_eq!(answer, verdict(Ok(())));
    assert_eq!(row, samples);
}

#[test]
fn codes_1_and_2() {
    CODES_1_AND_2.iter().for_each(is_read);
}

#[test]
fn code_3_read() {
    CODE_3.iter().for_each(is_read);
}

/// A buffer with a started file of one slot and room behind it; and the file's length.
fn started(order: Order, room: usize) -> (Vec<u8>, usize) {
    let mut buffer = vec![0xEE; 44 + room];
    let answer = calls::start(&mut buffer, (order == Order::High).into(), 1, b"A\t1\n");
    assert_eq!((answer.number, answer.length), (0, 44));
    (buffer, answer.length)
}

/// The room that a trace without strings takes beside its data.
const BLOCK: usize = 32 + 4;

#[test]
fn code_3_written() {
    let (samples, data) = CODE_3_WRITTEN;
    let (mut buffer, start) = started(Order::Low, 100);
    let answer = calls::add_integers(&mut buffer, start, b"", 3, &samples);
    let end = start + BLOCK + data.len();
    assert_eq!(answer, added(Ok(end)));
    assert_eq!(buffer[end - data.len()..end], data);
    assert!(buffer[end..].iter().all(|&b| b == 0xEE));
    for (sample, kept) in CODE_3_KEPT {
        for order in ORDERS {
            let (mut buffer, start) = started(order, 100);
            let given = [sample, 0, 0, 0];
            let end = calls::add_integers(&mut buffer, start, b"", 3, &given).length;
            let mut row = [77; 4];
            let answer = calls::integers(&buffer, end, 0, &mut row);
            assert_eq!((answer.number, row), (0, [kept, 0, 0, 0]));
        }
    }
    for sample in CODE_3_TOO_LARGE {
        let (mut buffer, start) = started(Order::High, 100);
        let before = buffer.clone();
        let given = [0, 0, sample, 0];
        let answer = calls::add_integers(&mut buffer, start, b"", 3, &given);
        assert_eq!(answer, added(Err(Refusal::file(29, 2))));
        assert_eq!(buffer, before);
    }
}

/// The five classes, of both codes and signs.
#[test]
fn classes() {
    let fours: [(u32, u8); 8] = [
        (0, 0),
        (0x8000_0000, 0),
        (1, 1),
        (0x807F_FFFF, 1),
        (0x3F80_0000, 2),
        (0x7F80_0000, 3),
        (0xFF80_0000, 3),
        (0x7FC0_0000, 4),
    ];
    for (pattern, class) in fours {
        let read = one_pattern(4, &pattern.to_le_bytes(), Order::Low);
        assert_eq!(read, (pattern.into(), class));
    }
    let fives: [(u64, u8); 6] = [
        (1 << 63, 0),
        (1, 1),
        (1.5f64.to_bits(), 2),
        (f64::NEG_INFINITY.to_bits(), 3),
        (0x7FF0_0000_0000_0001, 4),
        (u64::MAX, 4),
    ];
    for (pattern, class) in fives {
        let read = one_pattern(5, &pattern.to_be_bytes(), Order::High);
        assert_eq!(read, (pattern, class));
    }
}

/// The only pattern of a block, and its class.
fn one_pattern(code: u8, block: &[u8], order: Order) -> (u64, u8) {
    let bytes = file(order, code, 1, block);
    let (mut row, mut classes) = ([7], [7]);
    let answer = calls::bits(&bytes, bytes.len(), 0, &mut row, &mut classes);
    assert_eq!(answer, verdict(Ok(())));
    (row[0], classes[0])
}

/// How often each code was accepted and refused; codes over 5 count as one.
#[derive(Default)]
struct Met([[u32; 2]; 7]);

impl Met {
    fn count(&mut self, code: u8, accepted: bool) {
        self.0[usize::from(code.min(6))][usize::from(accepted)] += 1;
    }

    /// Each of these codes was often met both ways.
    fn both_ways(&self, codes: std::ops::RangeInclusive<usize>) {
        let met = &self.0;
        assert!(met[codes].iter().flatten().all(|&n| n > 1000), "{met:?}");
    }
}

/// Every code, also what is none, both orders, and blocks about as long as needed.
/// After a refusal the row is as it was. The file has one trace, and only that can be
/// wrong, so the quick question is refused alike.
#[test]
fn integers_read() {
    let mut rng = Rng::new(51);
    let mut met = Met::default();
    for _ in 0..30_000 {
        let code = rng.pick(&[0, 1, 1, 2, 2, 3, 3, 3, 4, 5, 6, 255]);
        let count = match rng.one_in(3) {
            true => rng.between(0, 60),
            false => 4 * rng.between(0, 15),
        };
        let length = near(&mut rng, code, count);
        let block = random_block(&mut rng, length);
        let rows = row_length(&mut rng, count);
        for order in ORDERS {
            let bytes = file(order, code, count, &block);
            let mut row: Vec<i32> = (0..rows).map(|_| rng.bits() as i32).collect();
            let (mut expected, mut quick) = (row.clone(), row.clone());
            let answer = calls::integers(&bytes, bytes.len(), 0, &mut row);
            let told = reference::samples_as_integers(&bytes, bytes.len(), 0, &mut expected);
            assert_eq!(answer, verdict(told), "{code} {count} {length}");
            assert_eq!(row, expected, "{code} {order:?}");
            let quickly = calls::quick_integers(&bytes, bytes.len(), 0, &mut quick);
            assert_eq!((quickly, quick), (answer, row), "{code} {order:?}");
            met.count(code, answer.number == 0);
        }
    }
    met.both_ways(1..=3);
}

#[test]
fn bits_read() {
    let mut rng = Rng::new(52);
    let mut met = Met::default();
    for _ in 0..30_000 {
        let code = rng.pick(&[0, 1, 2, 3, 4, 4, 4, 5, 5, 5, 6, 255]);
        let count = rng.between(0, 40);
        let length = near(&mut rng, code, count);
        let block = random_block(&mut rng, length);
        let rows = row_length(&mut rng, count);
        let class_rows = row_length(&mut rng, count);
        for order in ORDERS {
            let bytes = file(order, code, count, &block);
            let mut row: Vec<u64> = (0..rows).map(|_| rng.bits()).collect();
            let mut classes: Vec<u8> = (0..class_rows).map(|_| rng.byte()).collect();
            let mut expected = (row.clone(), classes.clone());
            let mut quick = expected.clone();
            let answer = calls::bits(&bytes, bytes.len(), 0, &mut row, &mut classes);
            let (to, class_to) = (&mut expected.0, &mut expected.1);
            let told = reference::samples_as_bits(&bytes, bytes.len(), 0, to, class_to);
            assert_eq!(answer, verdict(told), "{code} {count} {length}");
            assert_eq!((row, classes), expected, "{code} {order:?}");
            let (to, class_to) = (&mut quick.0, &mut quick.1);
            let quickly = calls::quick_bits(&bytes, bytes.len(), 0, to, class_to);
            assert_eq!((quickly, quick), (answer, expected), "{code} {order:?}");
            met.count(code, answer.number == 0);
        }
    }
    met.both_ways(4..=5);
}

/// A sample of any size, often at an end of a code's range.
fn random_sample(rng: &mut Rng, code: u8) -> i32 {
    let edge = rng.pick(&[0, 32_767, 32_768, 1 << 30, i32::MAX]);
    let near = edge.wrapping_add(rng.between(0, 4) as i32 - 2);
    let any = (rng.bits() as i32) >> rng.between(0, 31);
    let sample = if rng.one_in(2) { near } else { any };
    let signed = if rng.one_in(2) {
        sample.wrapping_neg()
    } else {
        sample
    };
    // Most are brought into the code's range, so that whole rows are taken.
    match (code, rng.one_in(40)) {
        (_, true) => signed,
        (1, _) => signed.clamp(-32_768, 32_767),
        (3, _) => signed.clamp(-1_073_741_823, 1_073_741_823),
        _ => signed,
    }
}

/// A row added in both orders to a started file in a buffer about as long as it needs:
/// the reference's answer and buffer, and the data bytes where it is taken.
fn written_alike(
    rng: &mut Rng,
    met: &mut Met,
    (code, count): (u8, usize),
    encode: impl Fn(Order) -> Option<Vec<u8>>,
    write: impl Fn(&mut [u8], usize) -> raw::Length,
    model: impl Fn(&mut [u8], usize) -> Result<usize, Refusal>,
) {
    let data = near(rng, code, count) + rng.pick(&[0, 2, 2, 4]);
    for order in ORDERS {
        let (mut buffer, start) = started(order, 0);
        buffer.truncate(start);
        buffer.extend(random_block(rng, BLOCK + data));
        let mut expected = buffer.clone();
        let answer = write(&mut buffer, start);
        assert_eq!(answer, added(model(&mut expected, start)), "{code} {count}");
        assert_eq!(buffer, expected, "{code} {count} {order:?}");
        if answer.number == 0 {
            let written = &buffer[start + BLOCK..answer.length];
            assert_eq!(Some(written.to_vec()), encode(order));
        }
        met.count(code, answer.number == 0);
    }
}

#[test]
fn integers_written() {
    let mut rng = Rng::new(53);
    let mut met = Met::default();
    for _ in 0..30_000 {
        let code = rng.pick(&[0, 1, 1, 2, 2, 3, 3, 3, 4, 5, 6, 255]);
        let count = match rng.one_in(3) {
            true => rng.between(0, 40),
            false => 4 * rng.between(0, 10),
        };
        let row: Vec<i32> = (0..count).map(|_| random_sample(&mut rng, code)).collect();
        let encode = |order| encode_integers(code, order, &row).ok();
        let write =
            |buffer: &mut [u8], start| calls::add_integers(buffer, start, b"", code.into(), &row);
        let model =
            |buffer: &mut [u8], start| reference::add_integers(buffer, start, b"", code, &row);
        written_alike(&mut rng, &mut met, (code, count), encode, write, model);
    }
    met.both_ways(1..=3);
}

/// Every number of groups up to five turns of the loop that writes eight at a time where
/// the compiler widens it: pairs of groups, and one alone.
#[test]
fn code_3_of_every_length() {
    let mut rng = Rng::new(55);
    for groups in 0..=41 {
        let row: Vec<i32> = (0..4 * groups)
            .map(|_| random_sample(&mut rng, 3).clamp(-1_073_741_823, 1_073_741_823))
            .collect();
        for order in ORDERS {
            let data = encode_integers(3, order, &row).expect("every sample fits");
            let (mut buffer, start) = started(order, BLOCK + data.len() + 9);
            let answer = calls::add_integers(&mut buffer, start, b"", 3, &row);
            let end = start + BLOCK + data.len();
            assert_eq!(answer, added(Ok(end)), "{groups}");
            assert_eq!(buffer[end - data.len()..end], data, "{groups} {order:?}");
            assert!(buffer[end..].iter().all(|&b| b == 0xEE), "{groups}");
        }
    }
}

#[test]
fn bits_written() {
    let mut rng = Rng::new(54);
    let mut met = Met::default();
    for _ in 0..30_000 {
        let code = rng.pick(&[0, 1, 2, 3, 4, 4, 4, 5, 5, 5, 6, 255]);
        let count = rng.between(0, 40);
        let wide = code != 4 || rng.one_in(4);
        let row: Vec<u64> = (0..count)
            .map(|_| match wide && rng.one_in(2) {
                true => rng.bits(),
                false => rng.bits() >> 32,
            })
            .collect();
        let encode = |order| encode_bits(code, order, &row).ok();
        let write =
            |buffer: &mut [u8], start| calls::add_bits(buffer, start, b"", code.into(), &row);
        let model = |buffer: &mut [u8], start| reference::add_bits(buffer, start, b"", code, &row);
        written_alike(&mut rng, &mut met, (code, count), encode, write, model);
    }
    met.both_ways(4..=5);
}

/// Written and read again: the same row under codes 1, 2, 4 and 5; under code 3 "the
/// value read differs by less than 2 to the exponent, and by nothing up to 32,767".
#[test]
fn written_then_read() {
    let mut rng = Rng::new(55);
    for _ in 0..5_000 {
        let count = 4 * rng.between(0, 12);
        for order in ORDERS {
            let (image, start) = started(order, BLOCK + 8 * count);
            for (code, largest) in [(1, 32_767), (2, i32::MAX), (3, (1 << 30) - 1)] {
                let given: Vec<i32> = (0..count)
                    .map(|_| random_sample(&mut rng, code).clamp(-largest, largest))
                    .collect();
                let (mut buffer, mut row) = (image.clone(), vec![77; count]);
                let answer = calls::add_integers(&mut buffer, start, b"", code.into(), &given);
                assert_eq!(answer.number, 0);
                let answer = calls::integers(&buffer, answer.length, 0, &mut row);
                assert_eq!(answer.number, 0);
                for (&was, &is) in given.iter().zip(&row) {
                    let bits = 32 - was.unsigned_abs().leading_zeros();
                    let exponent = if code == 3 {
                        bits.saturating_sub(15)
                    } else {
                        0
                    };
                    assert!(was.abs_diff(is) < 1 << exponent, "{code} {was} {is}");
                    assert!(is.unsigned_abs() <= was.unsigned_abs());
                }
            }
            for (code, shift) in [(4, 32), (5, 0)] {
                let given: Vec<u64> = (0..count).map(|_| rng.bits() >> shift).collect();
                let (mut row, mut classes) = (vec![77; count], vec![77; count]);
                let mut buffer = image.clone();
                let answer = calls::add_bits(&mut buffer, start, b"", code, &given);
                assert_eq!(answer.number, 0);
                let answer = calls::bits(&buffer, answer.length, 0, &mut row, &mut classes);
                assert_eq!((answer.number, row), (0, given));
            }
        }
    }
}
