//! Rows 1 to 13 and 34: the blocks of a file that is refused. Nothing of such a file is sure, so
//! what is not there is read as 0.

use super::{channel, cut_off, hex, no_such_trace, strings, Found};
use crate::files::grouped;
use seg2::Refusal;

/// The bytes of a refused file.
#[derive(Clone, Copy)]
pub struct Raw<'a> {
    pub bytes: &'a [u8],
}

impl<'a> Raw<'a> {
    fn high_first(self) -> bool {
        self.bytes.starts_with(&[0x3A, 0x55])
    }

    /// Bytes of the file, fewer where it ends.
    pub fn part(self, start: usize, size: usize) -> &'a [u8] {
        let rest = self.bytes.get(start..).unwrap_or(&[]);
        &rest[..rest.len().min(size)]
    }

    /// A whole number of the file's order.
    pub fn word(self, at: usize, size: usize) -> usize {
        let bytes = self.part(at, size).iter();
        let push = |word: usize, &byte: &u8| word << 8 | usize::from(byte);
        if self.high_first() {
            bytes.fold(0, push)
        } else {
            bytes.rev().fold(0, push)
        }
    }

    /// M.
    fn pointer_room(self) -> usize {
        self.word(4, 2)
    }

    /// N.
    fn trace_count(self) -> usize {
        self.word(6, 2)
    }

    /// A terminator whose length stands at a place.
    fn terminator(self, place: usize) -> &'a [u8] {
        self.part(place + 1, self.word(place, 1).min(2))
    }

    pub fn string_terminator(self) -> &'a [u8] {
        self.terminator(8)
    }

    pub fn line_terminator(self) -> &'a [u8] {
        self.terminator(11)
    }

    fn pointer(self, trace: usize) -> usize {
        self.word(32 + 4 * trace, 4)
    }

    /// Where a trace block ends, and where its data does.
    fn block_end(self, trace: usize) -> usize {
        let start = self.pointer(trace);
        start + self.word(start + 2, 2)
    }

    fn data_end(self, trace: usize) -> usize {
        self.block_end(trace) + self.word(self.pointer(trace) + 4, 4)
    }

    /// Where the strings of a part stand: those of an image without traces run to its end.
    pub fn area(self, part: i32) -> (usize, usize) {
        match usize::try_from(part) {
            Ok(trace) => (self.pointer(trace) + 32, self.block_end(trace)),
            Err(_) if self.trace_count() == 0 => (32 + self.pointer_room(), self.bytes.len()),
            Err(_) => (32 + self.pointer_room(), self.pointer(0)),
        }
    }
}

/// What stands at the place of a refusal by 1 to 17 or 34.
pub fn found(bytes: &[u8], refusal: &Refusal) -> Found {
    let raw = Raw { bytes };
    // only rows 8 on can be a trace's
    let trace = usize::try_from(refusal.part).unwrap_or(0);
    match refusal.number {
        1 => cut_off(bytes.len(), 32),
        2 => format!("it starts with {}", hex(raw.part(0, 2))).into(),
        3 => format!("bytes 2 and 3 say revision {}", raw.word(2, 2)).into(),
        4 => format!("bytes 4 and 5 say {} bytes", grouped(raw.pointer_room())).into(),
        5 => count_found(raw).into(),
        6 => terminator_found(raw, refusal.place).into(),
        7 => cut_off(bytes.len(), 32 + raw.pointer_room()),
        8 => pointer_found(raw, trace, end_before(raw, trace)),
        9 => mark_found(raw, refusal.place).into(),
        10 => block_found(raw, trace),
        11 => data_found(raw, trace),
        12 => format!("the code is {}", raw.word(refusal.place, 1)).into(),
        13 => samples_found(raw, raw.pointer(trace)).into(),
        34 => channel_found(raw, refusal.part).into(),
        _ => strings::found(raw, refusal).into(),
    }
}

/// The same of the lenient reading, which differs in the strings alone.
pub fn found_leniently(bytes: &[u8], refusal: &Refusal) -> Found {
    match refusal.number {
        14..=16 => strings::found_leniently(Raw { bytes }, refusal).into(),
        _ => found(bytes, refusal),
    }
}

/// The same of a question that reads one trace alone (document 02, §5), where no other has a
/// say in row 8; and row 18, as the bytes that tell how many there are have been judged.
pub fn found_in_trace(bytes: &[u8], asked: usize, refusal: &Refusal) -> Found {
    let raw = Raw { bytes };
    match refusal.number {
        8 => pointer_found(raw, asked, 32 + raw.pointer_room()),
        18 => no_such_trace(asked, raw.trace_count()).into(),
        _ => found(bytes, refusal),
    }
}

/// The trace's channel number beside that of trace 0.
fn channel_found(raw: Raw, trace: i32) -> String {
    let [own, first] = [trace, 0].map(|part| strings::value(raw, part, b"CHANNEL_NUMBER"));
    channel::trace_found(own, first)
}

fn count_found(raw: Raw) -> String {
    let room = raw.pointer_room();
    match raw.trace_count() {
        0 => "no trace was added yet".into(),
        count => format!("{count} traces, and the pointer room holds {}", room / 4),
    }
}

fn terminator_found(raw: Raw, place: usize) -> String {
    let whose = if place == 8 { "string" } else { "line" };
    let length = raw.word(place, 1);
    if !(1..=2).contains(&length) {
        return format!("the {whose} terminator's length is {length}, and 1 and 2 are allowed");
    }
    let characters = raw.terminator(place);
    let bad = characters.iter().find(|&&c| c > 31 || c == b'\t');
    let shared = characters
        .iter()
        .find(|c| raw.string_terminator().contains(c));
    match (bad, shared) {
        (Some(b'\t'), _) => format!("the {whose} terminator uses a tab (09h)"),
        (Some(&c), _) => format!("the {whose} terminator uses {}", hex(&[c])),
        (None, Some(&c)) => format!("both terminators use {}", hex(&[c])),
        (None, None) => format!("the {whose} terminator is {}", hex(characters)),
    }
}

/// Where what stands before a trace ends.
fn end_before(raw: Raw, trace: usize) -> usize {
    match trace.checked_sub(1) {
        Some(previous) => raw.data_end(previous),
        None => 32 + raw.pointer_room(),
    }
}

fn pointer_found(raw: Raw, trace: usize, before: usize) -> Found {
    let start = raw.pointer(trace);
    let said = format!("the pointer leads to byte {}", grouped(start));
    if start % 4 != 0 {
        return format!("{said}, no multiple of 4").into();
    }
    if start < before {
        let before = grouped(before);
        return format!("{said}, and what stands before ends at byte {before}").into();
    }
    cut_off(raw.bytes.len(), start + 32)
}

fn mark_found(raw: Raw, place: usize) -> String {
    let there = raw.part(place, 2);
    let mark = if raw.high_first() {
        [0x44, 0x22]
    } else {
        [0x22, 0x44]
    };
    let turned = there.iter().rev().eq(mark.iter());
    let why = if turned { ": the other byte order" } else { "" };
    format!(
        "{} stand there, and a trace block starts with {}{why}",
        hex(there),
        hex(&mark)
    )
}

fn block_found(raw: Raw, trace: usize) -> Found {
    let size = raw.word(raw.pointer(trace) + 2, 2);
    let said = format!("the block's size is {}", grouped(size));
    match size {
        0..=31 => format!("{said}, under 32").into(),
        _ if size % 4 != 0 => format!("{said}, no multiple of 4").into(),
        _ => cut_off(raw.bytes.len(), raw.block_end(trace)),
    }
}

fn data_found(raw: Raw, trace: usize) -> Found {
    let size = raw.word(raw.pointer(trace) + 4, 4);
    if size % 4 != 0 {
        return format!("the data's size is {}, no multiple of 4", grouped(size)).into();
    }
    cut_off(raw.bytes.len(), raw.data_end(trace))
}

fn samples_found(raw: Raw, block: usize) -> String {
    let (data, count, code) = (
        raw.word(block + 4, 4),
        raw.word(block + 8, 4),
        raw.word(block + 12, 1),
    );
    let samples = format!("{} samples of code {code}", grouped(count));
    if code == 3 && count % 4 != 0 {
        return format!("{samples}, no multiple of 4");
    }
    let needed = match code {
        1 => 2 * count,
        3 => 10 * (count / 4),
        5 => 8 * count,
        _ => 4 * count,
    };
    format!(
        "{samples} need {} bytes, and the data has {}",
        grouped(needed),
        grouped(data)
    )
}

#[cfg(test)]
mod tests {
    use super::*;
    use seg2::{Builder, Order, Quick};
    use seg2_reference::generate::{
        damaged, mutated, old_case, plain_file, Model, PlainTrace, Rng, WAYS,
    };
    use seg2_reference::worked::example;

    /// What is said of bytes that are refused, with the number before it.
    fn said(bytes: &[u8]) -> String {
        let refusal = seg2::check(bytes, bytes.len()).expect_err("a refusal");
        format!("{}: {}", refusal.number, found(bytes, &refusal).text)
    }

    /// The example with some bytes changed.
    fn changed(changes: &[(usize, &[u8])]) -> Vec<u8> {
        let mut bytes = example();
        for (at, new) in changes {
            bytes[*at..at + new.len()].copy_from_slice(new);
        }
        bytes
    }

    #[test]
    fn each_rule_says_what_was_found() {
        let cases: &[(usize, &[u8], &str)] = &[
            (0, &[0], "2: it starts with 00h 3Ah"),
            (2, &[2], "3: bytes 2 and 3 say revision 2"),
            (4, &[6], "4: bytes 4 and 5 say 6 bytes"),
            (6, &[0], "5: no trace was added yet"),
            (6, &[2], "5: 2 traces, and the pointer room holds 1"),
            (8, &[3], "6: the string terminator's length is 3, and 1 and 2 are allowed"),
            (9, b"A", "6: the string terminator uses 41h"),
            (12, b"\t", "6: the line terminator uses a tab (09h)"),
            (12, &[0], "6: both terminators use 00h"),
            (4, &[252], "7: cut off: 108 bytes there, at least 284 needed"),
            (32, &[58], "8: the pointer leads to byte 58, no multiple of 4"),
            (32, &[32], "8: the pointer leads to byte 32, and what stands before ends at byte 36"),
            (32, &[80], "8: cut off: 108 bytes there, at least 112 needed"),
            (56, &[0], "9: 00h 44h stand there, and a trace block starts with 22h 44h"),
            (56, &[0x44, 0x22], "9: 44h 22h stand there, and a trace block starts with 22h 44h: the other byte order"),
            (58, &[28], "10: the block's size is 28, under 32"),
            (58, &[46], "10: the block's size is 46, no multiple of 4"),
            (58, &[60], "10: cut off: 108 bytes there, at least 116 needed"),
            (60, &[6], "11: the data's size is 6, no multiple of 4"),
            (60, &[12], "11: cut off: 108 bytes there, at least 112 needed"),
            (68, &[9], "12: the code is 9"),
            (64, &[5], "13: 5 samples of code 1 need 10 bytes, and the data has 8"),
            (68, &[3], "13: 3 samples of code 3, no multiple of 4"),
            (88, &[2], "14: the offset is 2, and the shortest string has 4 bytes"),
            (88, &[200], "14: the offset 200 leads to byte 288, and the strings end at byte 100"),
            (88, b"\x0C\0STACK 111\0", "14: the strings end at byte 100 without an end mark"),
            (97, b"A", "15: byte 97 is 41h, and the string of `STACK` ends with 00h"),
            (92, b"a", "16: byte 92 is `a` (61h), a small letter, in the keyword `STaCK`"),
            (90, b" ", "16: the keyword is empty: byte 90 is a space (20h)"),
            (96, &[0xE9], "16: byte 96 is E9h, no ASCII character, in the value of `STACK`"),
        ];
        for (at, new, words) in cases {
            assert_eq!(said(&changed(&[(*at, new)])), *words);
        }
        assert_eq!(
            said(&example()[..31]),
            "1: cut off: 31 bytes there, at least 32 needed"
        );
    }

    /// What is said of bytes that are not even read leniently, of the lenient refusal.
    fn said_leniently(bytes: &[u8]) -> String {
        let refused = seg2::check_lenient(bytes, bytes.len()).expect_err("a refusal");
        let found = found_leniently(bytes, &refused.refusal);
        format!("{}: {}", refused.refusal.number, found.text)
    }

    /// Document 02, §11: small letters are none of the faults that are told.
    #[test]
    fn the_lenient_reading_says_what_it_does_not_forgive() {
        let cases: &[(usize, &[u8], &str)] = &[
            (0, &[0], "2: it starts with 00h 3Ah"),
            (
                88,
                &[2],
                "14: the offset is 2, and the shortest string has 4 bytes",
            ),
            // the string has 11 of the 12 bytes of its area
            (
                88,
                b"\x0B\0STACK 11\0",
                "14: byte 99 is left behind the last string, and an end mark has 2 bytes",
            ),
            (
                97,
                b"A",
                "15: byte 97 is 41h, and the string of `STACK` ends with 00h",
            ),
            (
                90,
                b"st\xE9ck",
                "16: byte 92 is E9h, no ASCII character, in the keyword `st\\xe9ck`",
            ),
            (
                90,
                b"stack \xE9",
                "16: byte 96 is E9h, no ASCII character, in the value of `stack`",
            ),
            (
                90,
                b"stack \n",
                "16: byte 96 is 0Ah, a control character, in the value of `stack`",
            ),
            (
                90,
                b"note  \x07",
                "16: byte 96 is 07h, a control character, in the value of `note`",
            ),
            (
                90,
                b" ",
                "16: the keyword is empty: byte 90 is a space (20h)",
            ),
        ];
        for (at, new, words) in cases {
            assert_eq!(said_leniently(&changed(&[(*at, new)])), *words);
        }
        // half a line terminator, in a NOTE of any letters
        let bytes = changed(&[(11, &[2, 13, 10]), (90, b"nOte  \n")]);
        let words = "16: byte 96 is 0Ah, a control character, and no whole line terminator, in the value of `nOte`";
        assert_eq!(said_leniently(&bytes), words);
    }

    /// The byte that is told is the one: with a good one there, something else is said.
    #[test]
    fn what_the_lenient_reading_refuses_is_told_by_what_was_found() {
        let mut rng = Rng::new(412);
        let mut told = 0;
        for _ in 0..4000 {
            let case = old_case(&mut rng);
            let bytes = case.buffer.get(..case.length).unwrap_or(&case.buffer);
            let Err(refused) = seg2::check_lenient(bytes, bytes.len()) else {
                continue;
            };
            let words = said_leniently(bytes);
            if refused.refusal.number != 16 {
                assert!(!words.is_empty());
                continue;
            }
            let (_, rest) = words.split_once("byte ").expect("a place");
            let place = rest.split(' ').next().and_then(|n| n.parse::<usize>().ok());
            let mended = changed_at(bytes, place.expect("a number"), b'A');
            if seg2::check_lenient(&mended, mended.len()).is_err() {
                assert_ne!(said_leniently(&mended), words);
            }
            told += 1;
        }
        assert!(told > 50, "{told}");
    }

    fn changed_at(bytes: &[u8], place: usize, byte: u8) -> Vec<u8> {
        let mut bytes = bytes.to_vec();
        bytes[place] = byte;
        bytes
    }

    /// A file whose block has two strings, the second one's start given.
    fn two_strings(sheet: &str, second: &str) -> (Vec<u8>, usize) {
        let mut shot = Builder::start(Order::High, 1, b"").expect("a start");
        shot.add_integers(sheet.as_bytes(), 1, &[])
            .expect("a trace");
        let bytes = shot.finish();
        let at = bytes
            .windows(second.len())
            .position(|w| w == second.as_bytes());
        (bytes, at.expect("the string"))
    }

    #[test]
    fn the_order_is_told_with_the_keyword_before() {
        let (mut bytes, at) = two_strings("B\t1\nC\t2\n", "C 2");
        bytes[at] = b'A';
        assert_eq!(said(&bytes), "17: `A` follows `B`, and comes before it");
        bytes[at] = b'B';
        assert_eq!(said(&bytes), "17: `B` is there twice");
    }

    /// A file of these traces, by the reference.
    fn of_traces(traces: &[&[&[u8]]]) -> Vec<u8> {
        let traces: Vec<_> = traces.iter().map(|t| PlainTrace::of_strings(t)).collect();
        plain_file(seg2_reference::Order::Low, &[b"UNITS METERS"], &traces)
    }

    #[test]
    fn a_channel_number_is_told_beside_trace_0() {
        let (one, zero, none) = (
            &[&b"CHANNEL_NUMBER 1"[..], b"STACK 1"][..],
            &[&b"A x"[..], b"CHANNEL_NUMBER \t0"][..],
            &[&b"STACK 1"[..]][..],
        );
        for (traces, words) in [
            (
                [one, zero],
                "34: its CHANNEL_NUMBER is `0`: 0, and 1 is the least",
            ),
            (
                [zero, one],
                "34: its CHANNEL_NUMBER is `0`: 0, and 1 is the least",
            ),
            (
                [one, none],
                "34: it has no CHANNEL_NUMBER, and trace 0 has `1`",
            ),
            (
                [none, one],
                "34: its CHANNEL_NUMBER is `1`, and trace 0 has none",
            ),
        ] {
            assert_eq!(said(&of_traces(&traces)), words);
        }
    }

    /// What is said where a trace's STACK alone is asked for.
    fn said_of(bytes: &[u8], trace: usize) -> String {
        let answer = Quick::new(bytes).value(trace, b"STACK");
        let refusal = answer.expect_err("a refusal");
        let found = found_in_trace(bytes, trace, &refusal);
        format!("{}: {}", refusal.number, found.text)
    }

    /// Document 02, §5: 8 means there "no multiple of 4, below 32+M, or p+32 past the end".
    #[test]
    fn one_traces_pointer_is_held_to_the_pointer_room() {
        let trace = &[&b"STACK 1"[..]][..];
        let bytes = of_traces(&[trace; 3]);
        let pointed = |p: u8| {
            let mut bytes = bytes.clone();
            bytes[40..44].copy_from_slice(&[p, 0, 0, 0]);
            bytes
        };
        for (p, words) in [
            (46, "8: the pointer leads to byte 46, no multiple of 4"),
            (
                40,
                "8: the pointer leads to byte 40, and what stands before ends at byte 44",
            ),
            (248, "8: cut off: 196 bytes there, at least 280 needed"),
            (
                44,
                "9: 0Fh 00h stand there, and a trace block starts with 22h 44h",
            ),
        ] {
            assert_eq!(said_of(&pointed(p), 2), words);
        }
        let none = "18: trace 3 was asked for, and the file has 3 traces, 0 to 2";
        assert_eq!(said_of(&pointed(46), 3), none);
    }

    #[test]
    fn one_trace_of_a_file_that_is_cut_anywhere_is_told_to_be_cut_off() {
        let mut rng = Rng::new(406);
        let mut cut = 0;
        for _ in 0..2000 {
            let laid = Model::random(&mut rng).lay();
            let bytes = &laid.buffer[..rng.between(1, laid.length)];
            for trace in 0..usize::from(laid.file.n) {
                let Err(refusal) = Quick::new(bytes).value(trace, b"NOTE") else {
                    continue;
                };
                let found = found_in_trace(bytes, trace, &refusal);
                assert!(found.cut_off, "{refusal}: {}", found.text);
                cut += 1;
            }
        }
        assert!(cut > 1000, "{cut}");
    }

    #[test]
    fn half_a_line_terminator_is_told_as_one() {
        let (mut bytes, at) = two_strings("A\t1\nNOTE\tX?Y\n", "X?Y");
        bytes[11..14].copy_from_slice(&[2, 13, 10]);
        bytes[at + 1] = 10;
        let words =
            "is 0Ah, a control character, and no whole line terminator, in the value of `NOTE`";
        assert_eq!(said(&bytes), format!("16: byte {} {words}", at + 1));
    }

    #[test]
    fn a_file_that_is_cut_anywhere_is_told_to_be_cut_off() {
        let mut rng = Rng::new(401);
        let mut cut = 0;
        for _ in 0..3000 {
            let laid = Model::random(&mut rng).lay();
            let there = rng.between(1, laid.length);
            let bytes = &laid.buffer[..there];
            let Err(refusal) = seg2::check(bytes, there) else {
                continue;
            };
            let found = found(bytes, &refusal);
            assert!(found.cut_off, "{refusal}: {}", found.text);
            let digits = |text: &str| text.replace(',', "").parse::<usize>().expect("a number");
            let words: Vec<&str> = found.text.split(' ').collect();
            assert_eq!(digits(words[2]), there);
            let needed = digits(words[7]);
            assert!(there < needed && needed <= laid.length, "{}", found.text);
            cut += 1;
        }
        assert!(cut > 1000, "{cut}");
    }

    /// The byte that is told to be forbidden is the one: with a good one there, something
    /// else is said.
    fn told_byte_matters(bytes: &[u8], words: &str) {
        let (_, rest) = words.split_once("byte ").expect("a place");
        let place: usize = rest
            .split(' ')
            .next()
            .and_then(|n| n.parse().ok())
            .expect("a number");
        let mut mended = bytes.to_vec();
        mended[place] = b'A';
        if let Err(refusal) = seg2::check(&mended, mended.len()) {
            assert_ne!(
                format!("{}: {}", refusal.number, found(&mended, &refusal).text),
                words
            );
        }
    }

    #[test]
    fn every_damage_is_told_by_what_was_found() {
        let mut rng = Rng::new(402);
        for way in WAYS {
            for _ in 0..60 {
                let case = damaged(&mut rng, way);
                let bytes = case.buffer.get(..case.length).unwrap_or(&case.buffer);
                let Err(refusal) = seg2::check(bytes, bytes.len()) else {
                    continue;
                };
                let words = found(bytes, &refusal);
                assert_eq!(words.cut_off, words.text.starts_with("cut off: "));
                if refusal.number == 16 {
                    told_byte_matters(bytes, &said(bytes));
                }
            }
        }
    }

    #[test]
    fn strings_of_a_start_run_to_its_end() {
        let image = Builder::start(Order::Low, 1, b"STACK\t1\n").expect("a start");
        let refused = |at: usize, new: u8| {
            let mut bytes = image.bytes().to_vec();
            bytes[at] = new;
            let refusal = Builder::resume(bytes.clone()).add_integers(b"", 1, &[]);
            let refusal = refusal.expect_err("a refusal");
            format!("{}: {}", refusal.number, found(&bytes, &refusal).text)
        };
        let words = "14: the offset 200 leads to byte 236, and the strings end at byte 48";
        assert_eq!(refused(36, 200), words);
        let words = "16: byte 38 is `s` (73h), a small letter, in the keyword `sTACK`";
        assert_eq!(refused(38, b's'), words);
    }

    #[test]
    fn no_bytes_at_all_are_too_strange_for_words() {
        let mut rng = Rng::new(403);
        for _ in 0..5000 {
            let (buffer, length) = mutated(&mut rng);
            let bytes = buffer.get(..length).unwrap_or(&buffer);
            if let Err(refusal) = seg2::check(bytes, bytes.len()) {
                assert!(!found(bytes, &refusal).text.is_empty());
            }
            for trace in 0..3 {
                if let Err(refusal) = Quick::new(bytes).value(trace, b"STACK") {
                    let found = found_in_trace(bytes, trace, &refusal);
                    assert!(!found.text.is_empty());
                }
            }
        }
    }
}
