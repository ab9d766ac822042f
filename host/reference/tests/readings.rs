//! How rules that leave something open are read, one test for each such point. (Generated
//! files are read in `reading.rs`.)

mod common;

use common::{file, image, pairs, refusal, string, strings_in, strings_of, trace};
use seg2_reference::sheet::sheet_strings;
use seg2_reference::*;

const ST: &[u8] = &[0];
const LT: &[u8] = &[0x0A];

#[test]
fn first_pointer_before_the_files_strings() {
    // The area's offset is bad too: the pointer decides.
    let mut bytes = file(ST, LT, &[1, 0, 0, 0], &trace(&[], 1, 0, &[]));
    assert_eq!(check(&bytes, bytes.len()), Err(refusal(14, -1, 36)));
    bytes[32] += 1;
    assert_eq!(check(&bytes, bytes.len()), Err(refusal(8, 0, 32)));
}

#[test]
fn later_pointers_name_their_slot() {
    let mut buffer = vec![0; 400];
    let mut length = start(&mut buffer, 1, 3, b"").expect("room");
    for _ in 0..3 {
        length = add_integers(&mut buffer, length, b"", 2, &[7]).expect("room");
    }
    buffer[32 + 8 + 3] += 2;
    assert_eq!(check(&buffer, length), Err(refusal(8, 2, 40)));
}

#[test]
fn equal_to_the_end_passes() {
    let bytes = file(ST, LT, &[], &trace(&[0; 4], 1, 2, &[1, 0, 2, 0]));
    assert!(check(&bytes, bytes.len()).is_ok());
    assert_eq!(check(&bytes, bytes.len() + 1), Err(refusal(1, -1, 0)));
    // p+B+D, then p+B, then p+32, each over by one.
    assert_eq!(check(&bytes, 75), Err(refusal(11, 0, 40)));
    assert_eq!(check(&bytes, 71), Err(refusal(10, 0, 38)));
    assert_eq!(check(&bytes, 67), Err(refusal(8, 0, 32)));
    // 32+M over by one.
    assert_eq!(check(&bytes, 35), Err(refusal(7, -1, 4)));
    assert_eq!(check(&bytes, 31), Err(refusal(1, -1, 0)));
}

#[test]
fn sums_are_exact() {
    let whole = file(ST, LT, &[], &trace(&[], 2, 1, &[0; 4]));
    let with = |at: usize, value: u32| {
        let mut bytes = whole.clone();
        bytes[at..at + 4].copy_from_slice(&value.to_le_bytes());
        check(&bytes, bytes.len())
    };
    assert_eq!(with(32, 0xFFFF_FFE0), Err(refusal(8, 0, 32)));
    assert_eq!(with(40, 0xFFFF_FFFC), Err(refusal(11, 0, 40)));
    assert_eq!(with(40, 0u32.wrapping_sub(68)), Err(refusal(11, 0, 40)));
    assert_eq!(with(44, 0x4000_0000), Err(refusal(13, 0, 44)));
    assert_eq!(with(44, 0x4000_0001), Err(refusal(13, 0, 44)));
    assert!(with(44, 0).is_ok());
}

#[test]
fn maximum_length() {
    let mut buffer = file(ST, LT, &[], &trace(&[], 1, 0, &[]));
    buffer[4] = 8;
    buffer[32] = 40;
    buffer.splice(36..36, [0; 4]);
    assert!(check(&buffer, buffer.len()).is_ok());
    buffer.resize(MAXIMUM_LENGTH + 64, 0);
    assert!(check(&buffer, MAXIMUM_LENGTH).is_ok());
    assert_eq!(check(&buffer, MAXIMUM_LENGTH + 1), Err(refusal(1, -1, 0)));
    // An addition needs 36 bytes: 30 for the maximum, though the buffer has room.
    let over = add_bits(&mut buffer, MAXIMUM_LENGTH - 35, b"", 4, &[]);
    assert_eq!(over, Err(refusal(30, -1, 0)));
    let equal = add_bits(&mut buffer, MAXIMUM_LENGTH - 36, b"", 4, &[]);
    assert_eq!(equal, Ok(MAXIMUM_LENGTH));
}

#[test]
fn terminators() {
    let checked = |string: [u8; 3], line: [u8; 3]| {
        let mut bytes = file(ST, LT, &[], &trace(&[], 1, 0, &[]));
        bytes[8..11].copy_from_slice(&string);
        bytes[11..14].copy_from_slice(&line);
        check(&bytes, bytes.len()).map(|f| (f.string_terminator, f.line_terminator))
    };
    // The unused second byte is ignored, also where it would be bad or shared.
    assert_eq!(checked([1, 0, 200], [1, 10, 0]), Ok((vec![0], vec![10])));
    assert_eq!(checked([1, 0, 9], [1, 10, 9]), Ok((vec![0], vec![10])));
    // Two equal characters are allowed.
    assert_eq!(
        checked([2, 0, 0], [2, 31, 31]),
        Ok((vec![0, 0], vec![31, 31]))
    );
    let at_8 = Err(refusal(6, -1, 8));
    let at_11 = Err(refusal(6, -1, 11));
    assert_eq!(checked([3, 0, 0], [3, 10, 0]), at_8);
    assert_eq!(checked([0, 0, 0], [1, 10, 0]), at_8);
    assert_eq!(checked([1, 32, 0], [1, 10, 0]), at_8);
    assert_eq!(checked([1, 9, 0], [1, 10, 0]), at_8);
    assert_eq!(checked([2, 0, 9], [1, 10, 0]), at_8);
    assert_eq!(checked([2, 0, 32], [1, 0, 0]), at_8);
    assert_eq!(checked([1, 0, 0], [0, 10, 0]), at_11);
    assert_eq!(checked([1, 0, 0], [2, 10, 9]), at_11);
    assert_eq!(checked([1, 0, 0], [1, 0, 0]), at_11);
    assert_eq!(checked([2, 0, 1], [2, 2, 1]), at_11);
}

#[test]
fn a_string_that_ends_at_the_areas_end() {
    let one = string(b"A 1", ST);
    assert_eq!(strings_in(ST, LT, &one), Err((14, one.len() as u64)));
    let with_byte = [&one[..], &[0]].concat();
    assert_eq!(strings_in(ST, LT, &with_byte), Err((14, one.len() as u64)));
    // Its own 14 to 17 first.
    assert_eq!(strings_in(ST, LT, &string(b"a 1", ST)), Err((16, 0)));
    let twice = [&one[..], &one[..]].concat();
    assert_eq!(strings_in(ST, LT, &twice), Err((17, one.len() as u64)));
    // An area of one byte, and none.
    assert_eq!(strings_in(ST, LT, &[0]), Err((14, 0)));
    assert_eq!(strings_in(ST, LT, &[]), pairs(&[]));
    assert_eq!(strings_in(ST, LT, &[0, 0]), pairs(&[]));
    assert_eq!(strings_in(ST, LT, &[0, 0, 1, 2, 3]), pairs(&[]));
}

#[test]
fn too_small_for_a_keyword() {
    for offset in [1, 2, 3] {
        assert_eq!(strings_in(ST, LT, &[offset, 0, 65, 0, 0, 0]), Err((14, 0)));
    }
    assert_eq!(
        strings_in(ST, LT, &[4, 0, 65, 0, 0, 0]),
        pairs(&[("A", "")])
    );
    // Two terminator characters: one more.
    assert_eq!(strings_in(&[1, 2], LT, &[4, 0, 1, 2, 0, 0]), Err((14, 0)));
    assert_eq!(
        strings_in(&[1, 2], LT, &[5, 0, 65, 1, 2, 0, 0]),
        pairs(&[("A", "")])
    );
    assert_eq!(strings_in(ST, LT, &[7, 0, 65, 0, 0, 0]), Err((14, 0)));
    assert_eq!(strings_in(ST, LT, &[6, 0, 65, 0, 0, 1]), Err((15, 0)));
    // A body that starts with a blank is an empty keyword.
    assert_eq!(strings_of(&[b" A"]), Err((16, 0)));
    assert_eq!(strings_of(&[b"\tA"]), Err((16, 0)));
    assert_eq!(strings_of(&[b" "]), Err((16, 0)));
}

#[test]
fn separators() {
    assert_eq!(strings_of(&[b"A \t \tx y\t "]), pairs(&[("A", "x y\t ")]));
    // Empty with or without separators: the part stands at the terminator.
    for body in [&b"ABC"[..], b"ABC ", b"ABC \t\t "] {
        let bytes = file(ST, LT, &padded(body), &trace(&[], 1, 0, &[]));
        let terminator = 36 + 2 + body.len();
        let found = string_count(&bytes, bytes.len(), -1);
        assert_eq!(found, Ok(1));
        let value = keyword_value(&bytes, bytes.len(), -1, b"ABC");
        assert_eq!(value, terminator..terminator);
        assert_eq!(keyword(&bytes, bytes.len(), -1, b"ABC"), Ok(true));
    }
}

/// One string, the end mark, and zeros to a multiple of 4.
fn padded(body: &[u8]) -> Vec<u8> {
    let mut area = string(body, ST);
    area.extend([0, 0]);
    area.resize(area.len().next_multiple_of(4), 0);
    area
}

#[test]
fn notes() {
    assert_eq!(
        strings_of(&[b"NOTE a\n\n b\n"]),
        pairs(&[("NOTE", "a\n\n b\n")])
    );
    assert_eq!(strings_of(&[b"NOTE \nb"]), pairs(&[("NOTE", "\nb")]));
    assert_eq!(strings_of(&[b"NOTE\nb"]), Err((16, 0)));
    assert_eq!(strings_of(&[b"NOTE\n b"]), Err((16, 0)));
    assert_eq!(strings_of(&[b"UNITS a\nb"]), Err((16, 0)));
    // Whole terminators from the left; half and reversed ones are 16.
    let note = |text: &[u8], line: &[u8]| {
        let area = [string(&[b"NOTE ", text].concat(), ST), vec![0, 0]].concat();
        strings_in(ST, line, &area)
    };
    assert!(note(b"a\r\nb\r\n", b"\r\n").is_ok());
    assert_eq!(note(b"a\rb", b"\r\n"), Err((16, 0)));
    assert_eq!(note(b"a\n\rb", b"\r\n"), Err((16, 0)));
    assert_eq!(note(b"a\r\r\n", b"\r\n"), Err((16, 0)));
    assert!(note(b"a\x01\x01\x01\x01", b"\x01\x01").is_ok());
    assert_eq!(note(b"a\x01\x01\x01", b"\x01\x01"), Err((16, 0)));
    // NOTE may follow any keyword, nothing follows it.
    assert!(strings_of(&[b"NOTES 1", b"Z 1", b"~", b"NOTE x"]).is_ok());
    assert_eq!(strings_of(&[b"NOTE", b"Z"]), Err((17, 7)));
    assert_eq!(strings_of(&[b"NOTE", b"NOTE"]), Err((17, 7)));
    assert_eq!(strings_of(&[b"AB", b"A"]), Err((17, 5)));
    assert_eq!(strings_of(&[b"A", b"A"]), Err((17, 4)));
    assert!(strings_of(&[b"A", b"AB", b"B"]).is_ok());
}

/// Document 02, §1: "RECEIVER_GEOMETRY and SOURCE_GEOMETRY may stand several times
/// running, in files and in sheets; all others still rise strictly."
#[test]
fn several_receivers_in_one_group() {
    let (r, s) = (&b"RECEIVER_GEOMETRY 1"[..], &b"SOURCE_GEOMETRY 1"[..]);
    let size = |body: &[u8]| body.len() as u64 + 3;
    assert!(strings_of(&[r; 6]).is_ok_and(|six| six.len() == 6));
    assert!(strings_of(&[r, r, s, s, s]).is_ok_and(|five| five.len() == 5));
    assert!(strings_of(&[b"A", r, r, b"SHOT", s, b"NOTE"]).is_ok());
    // It runs, or it is 17.
    let apart = strings_of(&[r, b"SHOT", r]);
    assert_eq!(apart, Err((17, size(r) + size(b"SHOT"))));
    assert_eq!(strings_of(&[s, r, r]), Err((17, size(s))));
    assert_eq!(strings_of(&[b"NOTE", r]), Err((17, size(b"NOTE"))));
    // No other repeats, NOTE included.
    for body in [
        &b"RECEIVER_LOCATION"[..],
        b"RECEIVER_GEOMETRYX",
        b"SOURCE",
        b"NOTE",
    ] {
        assert_eq!(strings_of(&[body; 2]), Err((17, size(body))));
    }
    // The same in sheets, by 26.
    let sheet =
        b"RECEIVER_GEOMETRY\t-1\nRECEIVER_GEOMETRY\t1\nSOURCE_GEOMETRY\t0\nSOURCE_GEOMETRY\t0\n";
    let strings = sheet_strings(sheet).expect("good");
    let values: Vec<&[u8]> = strings.iter().map(|s| &s.lines[0][..]).collect();
    assert_eq!(values, [&b"-1"[..], b"1", b"0", b"0"]);
    let apart = sheet_strings(b"SOURCE_GEOMETRY\t0\nSTACK\t1\nSOURCE_GEOMETRY\t1\n");
    assert_eq!(apart, Err(refusal(26, -1, 26)));
    assert_eq!(
        sheet_strings(b"STACK\t1\nSTACK\t1\n"),
        Err(refusal(26, -1, 8))
    );
    // A question answers the first; count and index have them all.
    let mut buffer = vec![0; 300];
    let length = start(&mut buffer, 0, 1, b"").expect("room");
    let length = add_integers(&mut buffer, length, sheet, 1, &[7]).expect("room");
    let value = keyword_value(&buffer, length, 0, b"RECEIVER_GEOMETRY");
    assert_eq!(buffer[value], *b"-1");
    assert_eq!(string_count(&buffer, length, 0), Ok(4));
    let second = seg2_reference::string(&buffer, length, 0, 1)
        .expect("a file")
        .expect("there");
    assert_eq!(buffer[second.value], *b"1");
}

#[test]
fn keywords_asked_for() {
    let area = padded(b"UNITS METERS");
    let bytes = file(ST, LT, &area, &trace(&padded(b"STACK 4"), 1, 0, &[]));
    let ask = |part, word: &[u8]| keyword(&bytes, bytes.len(), part, word);
    assert_eq!(ask(-1, b"UNITS"), Ok(true));
    assert_eq!(ask(0, b"STACK"), Ok(true));
    for word in [
        &b""[..],
        b"units",
        b"UNIT",
        b"UNITS ",
        b"UNITS METERS",
        b"STACK",
        b"\0\xFF",
    ] {
        assert_eq!(ask(-1, word), Ok(false));
        assert_eq!(keyword_value(&bytes, bytes.len(), -1, word), 0..0);
    }
    for part in [-2, 1, 2, i64::MIN, i64::MAX] {
        assert_eq!(ask(part, b"UNITS"), Err(refusal(18, -1, 0)));
        assert_eq!(keyword_value(&bytes, bytes.len(), part, b"UNITS"), 0..0);
        let counted = string_count(&bytes, bytes.len(), part);
        assert_eq!(counted, Err(refusal(18, -1, 0)));
        let block = trace_block(&bytes, bytes.len(), part);
        assert_eq!(block, Err(refusal(18, -1, 0)));
    }
    assert_eq!(
        trace_block(&bytes, bytes.len(), -1),
        Err(refusal(18, -1, 0))
    );
    assert_eq!(keyword_value(&bytes, 3, -1, b"UNITS"), 0..0);
    assert_eq!(keyword(&bytes, 3, -1, b"UNITS"), Err(refusal(1, -1, 0)));
}

#[test]
fn numbers() {
    let no = |n| Err(refusal(n, -1, 0));
    // 20 before 21; zeros count; not trimmed.
    assert_eq!(number(b"1234567890123456789012."), no(20));
    assert_eq!(number(b"000000000000000000"), number(b"0"));
    assert_eq!(number(b"0000000000000000000"), no(21));
    assert_eq!(number(b"000000000.0000000000"), no(21));
    assert_eq!(number(b"1E00"), number(b"1"));
    assert_eq!(number(b"1E000"), no(21));
    assert_eq!(number(b" 1"), no(20));
    assert_eq!(number(b"1 "), no(20));
    // `0E99` is a number, and 22 as a double; zero has sign plus.
    let zero = |power, decimals| {
        Ok(Number {
            minus: false,
            coefficient: 0,
            power,
            decimals,
        })
    };
    assert_eq!(number(b"0E99"), zero(99, 0));
    assert_eq!(double(b"0E99"), Err(refusal(22, -1, 0)));
    assert_eq!(number(b"-0.00E-7"), zero(-9, 2));
    assert_eq!(double(b"-0.0").map(f64::to_bits), Ok(0));
    // The edges of the double case.
    assert_eq!(double(b"9007199254740991"), Ok(9007199254740991.0));
    assert_eq!(double(b"9007199254740992"), Err(refusal(22, -1, 0)));
    assert_eq!(double(b"1E15"), Ok(1e15));
    assert_eq!(double(b"1E16"), Err(refusal(22, -1, 0)));
    assert_eq!(double(b"1E-15"), Ok(1e-15));
    assert_eq!(double(b"0.1E-15"), Err(refusal(22, -1, 0)));
    assert_eq!(double(b"-9007199254740991E15"), Ok(-9007199254740991e15));
}

#[test]
fn locations() {
    let no = |n, place| Err(refusal(n, -1, place));
    let yes = |[x, y, z]: [f64; 3], count, decimals| {
        Ok(Location {
            x,
            y,
            z,
            count,
            decimals,
        })
    };
    assert_eq!(location(b"120.5"), yes([120.5, 0.0, 0.0], 1, [1, 0, 0]));
    assert_eq!(
        location(b" \t120.5 0\t -0.250 "),
        yes([120.5, 0.0, -0.25], 3, [1, 0, 3])
    );
    assert_eq!(location(b""), no(23, 0));
    assert_eq!(location(b" \t"), no(23, 0));
    assert_eq!(location(b"1 2 3 4"), no(23, 0));
    // 23 first, then value by value.
    assert_eq!(location(b"x y"), no(23, 0));
    assert_eq!(location(b"  1 x 1E99"), no(20, 4));
    assert_eq!(location(b"1E99 x 1"), no(22, 0));
    assert_eq!(location(b"1\t2\t1E100"), no(21, 4));
    assert_eq!(location(b" 1,5"), no(20, 1));
}

#[test]
fn rows() {
    let code_1 = file(ST, LT, &[], &trace(&[], 1, 2, &[1, 0, 2, 0]));
    let code_4 = file(ST, LT, &[], &trace(&[], 4, 1, &[0, 0, 128, 63]));
    let no = |n| Err(refusal(n, -1, 0));
    let integers = |bytes: &[u8], length, trace, count| {
        let mut row = vec![77; count];
        let answer = samples_as_integers(bytes, length, trace, &mut row);
        assert!(answer.is_ok() || row.iter().all(|&v| v == 77));
        answer
    };
    let bits = |bytes: &[u8], length, trace, count, classes| {
        let mut row = vec![77; count];
        let mut of_class = vec![77; classes];
        let answer = samples_as_bits(bytes, length, trace, &mut row, &mut of_class);
        assert!(answer.is_ok() || row.iter().all(|&v| v == 77));
        assert!(answer.is_ok() || of_class.iter().all(|&v| v == 77));
        answer
    };
    assert_eq!(integers(&code_1, code_1.len(), 0, 2), Ok(()));
    assert_eq!(integers(&code_1, code_1.len(), 0, 3), no(32));
    assert_eq!(integers(&code_1, code_1.len(), 0, 0), no(32));
    assert_eq!(integers(&code_1, code_1.len(), 1, 3), no(18));
    assert_eq!(integers(&code_1, code_1.len(), -1, 3), no(18));
    assert_eq!(integers(&code_4, code_4.len(), 0, 3), no(33));
    assert_eq!(integers(&code_4, code_4.len(), 1, 3), no(18));
    assert_eq!(integers(&code_4, 5, 1, 3), no(1));
    assert_eq!(bits(&code_4, code_4.len(), 0, 1, 1), Ok(()));
    assert_eq!(bits(&code_4, code_4.len(), 0, 1, 2), no(32));
    assert_eq!(bits(&code_4, code_4.len(), 0, 0, 1), no(32));
    assert_eq!(bits(&code_1, code_1.len(), 0, 0, 1), no(33));
    assert_eq!(bits(&code_1, code_1.len(), -1, 0, 1), no(18));
}

#[test]
fn sheet_lines() {
    let refused_at = |sheet: &[u8]| sheet_strings(sheet).map_err(|r| (r.number, r.place));
    assert!(refused_at(b"").is_ok());
    assert!(refused_at(b"A\t\n").is_ok());
    for line in [
        &b"A\n"[..],
        b"A 1\n",
        b"A\t1\t2\n",
        b"A\t1\r\n",
        b"A\t\x001\n",
        b"A\t\x7F\n",
        b"A\t 1\n",
        b"NOTE\t 1\n",
        b"\t1\n",
        b"a\t1\n",
        b"A B\t1\n",
        b"\n",
        b"A\t1",
        b"A",
    ] {
        assert_eq!(refused_at(line), Err((25, 0)), "{line:?}");
        let second = [b"!\tx\n", line].concat();
        assert_eq!(refused_at(&second), Err((25, 4)), "{line:?}");
    }
    // Line by line, 25 before 26.
    assert_eq!(refused_at(b"B\t1\nA\t1\n"), Err((26, 4)));
    assert_eq!(refused_at(b"B\t1\nA\t1\n\n"), Err((26, 4)));
    assert_eq!(refused_at(b"B\t1\nA\t 1\n"), Err((25, 4)));
    assert_eq!(refused_at(b"B\t1\nB\t1\n"), Err((26, 4)));
    // All lines before 27.
    let mut large = b"A\t".to_vec();
    large.resize(70_000, b'x');
    large.push(b'\n');
    let mut buffer = vec![0; 80_000];
    let started = start(&mut buffer, 0, 1, &large);
    assert_eq!(started, Err(refusal(27, -1, 0)));
    large.extend(b"A\t1\n");
    let started = start(&mut buffer, 0, 1, &large);
    assert_eq!(started, Err(refusal(26, -1, 70_001)));
}

#[test]
fn note_lines_of_a_sheet() {
    let strings = sheet_strings(b"A\t1\nNOTE\tx\nNOTE\t y\nNOTE\t\n").expect("good");
    assert_eq!(strings.len(), 2);
    assert_eq!(strings[1].lines, [&b"x"[..], b" y", b""]);
    let followed = sheet_strings(b"NOTE\tx\nNOTE\ty\nZ\t1\n");
    assert_eq!(followed, Err(refusal(26, -1, 14)));
    let apart = sheet_strings(b"NOTE\tx\nZ\t1\nNOTE\ty\n");
    assert_eq!(apart, Err(refusal(26, -1, 7)));
}

#[test]
fn the_largest_area() {
    // 2 for the offset, A, a space, the value, the terminator, 2 for the end mark.
    let sheet = |value: usize| [b"A\t", &vec![b'x'; value][..], b"\n"].concat();
    let mut buffer = vec![0; 70_000];
    let largest = 65_500 - 2 - 2 - 2 - 1;
    assert_eq!(start(&mut buffer, 0, 1, &sheet(largest)), Ok(36 + 65_500));
    let over = start(&mut buffer, 0, 1, &sheet(largest + 1));
    assert_eq!(over, Err(refusal(27, -1, 0)));
    // The file's own terminator lengths: two characters, one byte less.
    let empty = image(&[1, 2], &[3], &[]);
    buffer[..36].copy_from_slice(&empty);
    let over = add_integers(&mut buffer, 36, &sheet(largest), 1, &[]);
    assert_eq!(over, Err(refusal(27, -1, 0)));
    let equal = add_integers(&mut buffer, 36, &sheet(largest - 1), 1, &[]);
    assert_eq!(equal, Ok(36 + 65_532));
    assert_eq!(
        check(&buffer, 36 + 65_532).map(|f| f.traces[0].b),
        Ok(65_532)
    );
}

#[test]
fn addition_to_an_image() {
    // A length that is no multiple of 4: the gap is zeroed and ignored.
    let area = [string(b"UNITS METERS", ST), vec![0, 0, 7, 7]].concat();
    let mut buffer = image(ST, LT, &area);
    let length = buffer.len();
    assert_eq!(length % 4, 3);
    buffer.resize(200, 0xEE);
    assert_eq!(check(&buffer, length), Err(refusal(5, -1, 6)));
    let new = add_bits(&mut buffer, length, b"", 5, &[1]);
    assert_eq!(new, Ok(length + 1 + 36 + 8));
    assert_eq!(buffer[length], 0);
    let file = check(&buffer, length + 45).expect("a file");
    assert_eq!((file.n, file.strings.len()), (1, 1));
    assert_eq!(file.traces[0].p as usize, length + 1);
    // Its strings are judged: here the end mark is missing.
    let mut bad = image(ST, LT, &string(b"UNITS METERS", ST));
    let length = bad.len();
    bad.resize(200, 0xEE);
    let refused = add_bits(&mut bad, length, b"", 5, &[1]);
    assert_eq!(refused, Err(refusal(14, -1, 51)));
}

#[test]
fn rows_24_to_31() {
    let no = |n, place| Err(refusal(n, -1, place));
    let mut buffer = vec![0; 200];
    for (order, slots) in [(2, 1), (0, 0), (1, 16_384), (u32::MAX, u64::MAX)] {
        // 31 is one row, and comes before a bad sheet.
        assert_eq!(start(&mut buffer, order, slots, b"\n"), no(31, 0));
    }
    assert_eq!(start(&mut buffer[..39], 0, 1, b""), no(30, 0));
    assert_eq!(start(&mut buffer[..39], 0, 1, b"\n"), no(25, 0));
    let length = start(&mut buffer[..40], 0, 1, b"").expect("equal room passes");
    for code in [0, 4, 5, 6, 255] {
        let added = add_integers(&mut buffer, length, b"", code, &[]);
        assert_eq!(added, no(28, 0));
    }
    for code in [0, 1, 2, 3, 6, 255] {
        assert_eq!(add_bits(&mut buffer, length, b"", code, &[]), no(28, 0));
    }
    let added = add_integers(&mut buffer, length, b"", 3, &[1 << 30]);
    assert_eq!(added, no(28, 0));
    let added = add_integers(&mut buffer, length, b"", 1, &[0, 32_768, -32_769]);
    assert_eq!(added, no(29, 1));
    let added = add_bits(&mut buffer, length, b"", 4, &[0, 0, 1 << 32]);
    assert_eq!(added, no(29, 2));
    let need = 40 + 36 + 4;
    let added = add_integers(&mut buffer[..need - 1], length, b"", 1, &[5]);
    assert_eq!(added, no(30, 0));
    let added = add_integers(&mut buffer[..need], length, b"", 1, &[5]);
    assert_eq!(added, Ok(need));
    // No slot is free: before a bad sheet; 1 to 17 before both, with their part.
    assert_eq!(add_bits(&mut buffer, need, b"\n", 9, &[]), no(24, 0));
    buffer[40] = 0;
    let added = add_bits(&mut buffer, need, b"\n", 9, &[]);
    assert_eq!(added, Err(refusal(9, 0, 40)));
}

#[test]
fn listings() {
    let area = padded(b"NOTE a\tb\n\nc\n");
    let traces = trace(&padded(b"EMPTY"), 5, 0, &[]);
    let mut bytes = file(ST, LT, &area, &traces);
    let expected = "SEG2\tlow\t1\t4\n\
                    S\tF\tNOTE\ta b\nS\tF\tNOTE\t\nS\tF\tNOTE\tc\nS\tF\tNOTE\t\n\
                    T\t0\t5\t0\n\
                    S\t0\tEMPTY\t\n";
    assert_eq!(String::from_utf8(listing(&bytes)).as_deref(), Ok(expected));
    bytes.resize(65_536, 0);
    assert_eq!(listing_program(&bytes), expected.as_bytes());
    // 19 is the program's alone: the listing takes a file of any length.
    bytes.push(0);
    assert_eq!(listing_program(&bytes), b"R\t19\tF\t0\n");
    assert_eq!(listing(&bytes), expected.as_bytes());
    assert_eq!(listing_program(&[0; 70_000]), b"R\t19\tF\t0\n");
    assert_eq!(listing(&[0; 70_000]), b"R\t2\tF\t0\n");
    assert_eq!(listing_program(&[]), b"R\t1\tF\t0\n");
    assert_eq!(listing(&[]), b"R\t1\tF\t0\n");
    let zero = image(ST, LT, &[0, 0]);
    assert_eq!(listing(&zero), b"R\t5\tF\t6\n");
    let mut bad = file(ST, LT, &[], &trace(&padded(b"a"), 1, 0, &[]));
    assert_eq!(listing(&bad), b"R\t16\t0\t68\n");
    bad[36] = 0;
    assert_eq!(listing(&bad), b"R\t9\t0\t36\n");
}

#[test]
fn ieee_classes() {
    let code_4: [u32; 10] = [
        0x0000_0000,
        0x8000_0000,
        0x0000_0001,
        0x807F_FFFF,
        0x0080_0000,
        0x3F80_0000,
        0xC000_0000, // -2; the paper's own worked value is wrong
        0x7F80_0000,
        0xFF80_0000,
        0x7FC0_0000,
    ];
    let expected = [0, 0, 1, 1, 2, 2, 2, 3, 3, 4];
    let data: Vec<u8> = code_4.iter().flat_map(|v| v.to_le_bytes()).collect();
    let bytes = file(ST, LT, &[], &trace(&[], 4, 10, &data));
    let (mut row, mut classes) = ([0; 10], [9; 10]);
    let read = samples_as_bits(&bytes, bytes.len(), 0, &mut row, &mut classes);
    assert_eq!(read, Ok(()));
    assert_eq!(row, code_4.map(u64::from));
    assert_eq!(classes, expected);

    let code_5: [f64; 10] = [
        0.0,
        -0.0,
        f64::from_bits(1),
        -f64::from_bits(0xF_FFFF_FFFF_FFFF),
        f64::MIN_POSITIVE,
        1.0,
        -2.0,
        f64::INFINITY,
        f64::NEG_INFINITY,
        f64::NAN,
    ];
    let data: Vec<u8> = code_5.iter().flat_map(|v| v.to_le_bytes()).collect();
    let bytes = file(ST, LT, &[], &trace(&[], 5, 10, &data));
    let read = samples_as_bits(&bytes, bytes.len(), 0, &mut row, &mut classes);
    assert_eq!(read, Ok(()));
    assert_eq!(row, code_5.map(f64::to_bits));
    assert_eq!(classes, expected);
    assert_eq!(f32::from_bits(0xC000_0000), -2.0);
}
