//! What a crew reads where something is refused: whose fault it is, where, what was found,
//! what to do, and where more is said.

mod common;

use common::{add, run, Folder};
use std::path::Path;

use seg2::{Builder, Order};
use seg2_reference::generate::{plain_file, PlainTrace};
use seg2_reference::worked::example;

/// The lines of a refusal: the first with this start, what was found, something to do, and
/// at the end the hint.
fn told(said: &str, name: &Path, number: u32, found: &str) {
    let lines: Vec<&str> = said.trim_end().lines().collect();
    let name = name.display();
    let start = format!("{name}: refused ({number})");
    let first = lines[0].strip_prefix("seg2: ").unwrap_or(lines[0]);
    assert!(first.starts_with(&start), "{said}");
    assert!(first.ends_with(seg2::text(number)), "{said}");
    assert_eq!(lines[1], format!("    found: {found}"), "{said}");
    assert!(lines[2].starts_with("    to do: "), "{said}");
    assert!(lines[2].len() > 15, "{said}");
    let last = format!("    more: ./seg2 explain {number}");
    assert_eq!(lines.last(), Some(&last.as_str()), "{said}");
}

/// A file with one trace of code 1 and one of code 5, and the values that are asked for.
fn shot_of_two(folder: &Folder) -> std::path::PathBuf {
    let sheet = b"DELAY\t0,5\nLONG\t1234567890123456789\nRECEIVER_LOCATION\t1 2\nSMALL\t1E-16\nSOURCE_LOCATION\t1 2 X\n";
    let mut shot = Builder::start(Order::Low, 2, sheet).expect("a start");
    shot.add_integers(b"DELAY\t-0.020\n", 1, &[1, 2, 3])
        .expect("a trace");
    shot.add_bits(b"", 5, &[0]).expect("a trace");
    folder.keep("two", shot.bytes())
}

#[test]
fn a_cut_off_file_is_told_so_by_every_command() {
    let folder = Folder::new("words-cut");
    let cut = folder.keep("cut", &example()[..104]);
    let found = "cut off: 104 bytes there, at least 108 needed";
    told(&run!("check", cut).1, &cut, 11, found);
    told(&run!("list", cut).2, &cut, 11, found);
    told(&run!("samples", cut, "0").2, &cut, 11, found);
    told(&run!("samples", cut, "--all").2, &cut, 11, found);
    told(&run!("value", cut, "0", "STACK").2, &cut, 11, found);
    let (none, samples) = (folder.keep("none", ""), folder.keep("samples", "1\n"));
    told(&add(&cut, &none, "1", &samples).2, &cut, 11, found);
    let said = run!("check", cut).1;
    assert!(said.contains("    to do: copy the file again from where it was recorded\n"));
}

#[test]
fn a_trace_that_is_not_there_is_told_with_those_that_are() {
    let folder = Folder::new("words-18");
    let shot = shot_of_two(&folder);
    let found = "trace 2 was asked for, and the file has 2 traces, 0 to 1";
    told(&run!("samples", shot, "2").2, &shot, 18, found);
    told(&run!("value", shot, "2", "DELAY").2, &shot, 18, found);
}

/// Document 02, §5: a trace's value is refused for what was read of the file, in the words of
/// the check but for row 8, where no other trace has a say.
#[test]
fn a_traces_value_is_refused_for_what_was_read() {
    let folder = Folder::new("words-quick");
    let strings: &[&[u8]] = &[b"DELAY 0", b"STACK 4"];
    let traces = [PlainTrace::of_strings(strings); 2];
    let bytes = plain_file(seg2_reference::Order::Low, &[], &traces);
    // the pointers, and the second trace's strings
    assert_eq!((bytes[32], bytes[36], bytes.len()), (44, 100, 156));
    assert_eq!(&bytes[134..139], b"DELAY");
    let cases: &[(usize, &[u8], u32, &str)] = &[
        (2, &[2], 3, "bytes 2 and 3 say revision 2"),
        (
            6,
            &[1],
            18,
            "trace 1 was asked for, and the file has one trace, 0",
        ),
        (
            36,
            &[102],
            8,
            "the pointer leads to byte 102, no multiple of 4",
        ),
        (
            36,
            &[36],
            8,
            "the pointer leads to byte 36, and what stands before ends at byte 40",
        ),
        (
            36,
            &[128],
            8,
            "cut off: 156 bytes there, at least 160 needed",
        ),
        (
            36,
            &[40],
            9,
            "00h 00h stand there, and a trace block starts with 22h 44h",
        ),
        (102, &[28], 10, "the block's size is 28, under 32"),
        (
            104,
            &[4],
            11,
            "cut off: 156 bytes there, at least 160 needed",
        ),
        (
            132,
            &[2],
            14,
            "the offset is 2, and the shortest string has 4 bytes",
        ),
        (
            134,
            b"d",
            16,
            "byte 134 is `d` (64h), a small letter, in the keyword `dELAY`",
        ),
        (
            144,
            b"A",
            17,
            "`ATACK` follows `DELAY`, and comes before it",
        ),
    ];
    for (at, new, number, found) in cases {
        let mut bytes = bytes.clone();
        bytes[*at..at + new.len()].copy_from_slice(new);
        let shot = folder.keep("shot", &bytes);
        let (status, out, error) = run!("value", shot, "1", "STACK");
        assert_eq!((status, out.as_str()), (1, ""), "{found}");
        told(&error, &shot, *number, found);
        // with the trace and the place
        let answer = seg2::Quick::new(&bytes).value(1, b"STACK");
        let refusal = answer.expect_err("a refusal").to_string();
        assert!(error.contains(&refusal), "{error}");
    }
    // a pointer into another trace is refused by the check alone
    let mut bytes = bytes;
    bytes[36] = 44;
    let shot = folder.keep("shot", &bytes);
    let found = "the pointer leads to byte 44, and what stands before ends at byte 100";
    told(&run!("check", shot).1, &shot, 8, found);
    assert_eq!(run!("value", shot, "1", "STACK").1, "4\n");
}

#[test]
fn numbers_and_locations_say_what_is_wrong_with_them() {
    let folder = Folder::new("words-20");
    let shot = shot_of_two(&folder);
    for (part, keyword, kind, number, found) in [
        (
            "F",
            "DELAY",
            "number",
            20,
            "the value of `DELAY` is `0,5`: a comma stands where only a point may",
        ),
        (
            "1",
            "DELAY",
            "double",
            20,
            "the keyword `DELAY` is not there",
        ),
        (
            "F",
            "LONG",
            "number",
            21,
            "the value of `LONG` is `1234567890123456789`: 19 digits, and 18 are allowed before E",
        ),
        (
            "F",
            "SMALL",
            "double",
            22,
            "the value of `SMALL` is `1E-16`: too small, its power of ten is -16 and at least -15",
        ),
        (
            "-1",
            "RECEIVER_LOCATION",
            "location",
            23,
            "`RECEIVER_LOCATION` has 2 values: `1 2`",
        ),
        (
            "0",
            "RECEIVER_LOCATION",
            "location",
            23,
            "the keyword `RECEIVER_LOCATION` is not there",
        ),
        (
            "F",
            "SOURCE_LOCATION",
            "location",
            20,
            "the value of `SOURCE_LOCATION` is `1 2 X`, and `X` there: it is none",
        ),
    ] {
        let (status, out, error) = run!("value", shot, part, keyword, "--as", kind);
        assert_eq!((status, out.as_str()), (1, ""), "{keyword}");
        told(&error, &shot, number, found);
    }
}

#[test]
fn bit_patterns_of_whole_numbers_name_trace_and_code() {
    let folder = Folder::new("words-33");
    let shot = shot_of_two(&folder);
    told(
        &run!("samples", shot, "0", "--bits").2,
        &shot,
        33,
        "trace 0 has code 1",
    );
    let all = run!("samples", shot, "--all", "--bits").2;
    told(&all, &shot, 33, "trace 0 has code 1");
}

#[test]
fn what_is_wrong_with_a_sheet_is_the_sheets() {
    let folder = Folder::new("words-25");
    let shot = folder.path("shot");
    let start =
        |sheet: &Path| run!("new", shot, "--order", "low", "--slots", "1", "--sheet", sheet);
    let lower = folder.keep("lower", "A\t1\nb\t2\n");
    let found = "line 2, `b\\t2`: character 1 is `b` (62h), a small letter, in the keyword";
    told(&start(&lower).2, &lower, 25, found);
    let order = folder.keep("order", "B\t1\nA\t2\n");
    let found = "line 2, `A\\t2`: `A` follows `B`, and comes before it";
    told(&start(&order).2, &order, 26, found);
    let long = folder.keep("long", format!("A\t{}\n", "1".repeat(70_000)));
    told(&start(&long).2, &long, 27, "the sheet has 70,003 bytes");
    assert!(!shot.exists());
    // the same from an addition, which does not blame the shot file
    let full = folder.keep("full", example());
    let image = Builder::start(Order::Low, 9, b"").expect("a start");
    let free = folder.keep("free", image.bytes());
    let samples = folder.keep("samples", "1\n");
    told(&add(&free, &order, "1", &samples).2, &order, 26, found);
    told(
        &add(&free, &long, "1", &samples).2,
        &long,
        27,
        "the sheet has 70,003 bytes",
    );
    let found = "the file was started for one trace and has it";
    told(&add(&full, &order, "1", &samples).2, &full, 24, found);
    let two = shot_of_two(&folder);
    let found = "the file was started for 2 traces and has them all";
    told(&add(&two, &order, "1", &samples).2, &two, 24, found);
}

/// Twelve traces, three of them with a channel number.
fn three_of_twelve() -> Vec<u8> {
    let (without, with): (&[&[u8]], &[&[u8]]) = (&[b"STACK 1"], &[b"CHANNEL_NUMBER 5", b"STACK 1"]);
    let mut strings = [without; 12];
    for k in [4, 7, 11] {
        strings[k] = with;
    }
    let traces = strings.map(PlainTrace::of_strings);
    plain_file(seg2_reference::Order::Low, &[], &traces)
}

#[test]
fn channel_numbers_of_some_traces_are_told_by_every_command() {
    let folder = Folder::new("words-34");
    let shot = folder.keep("shot", three_of_twelve());
    let found = "its CHANNEL_NUMBER is `5`, and trace 0 has none";
    told(&run!("check", shot).1, &shot, 34, found);
    told(&run!("list", shot).2, &shot, 34, found);
    told(&run!("samples", shot, "0").2, &shot, 34, found);
    let number = run!("value", shot, "0", "STACK", "--as", "number").2;
    told(&number, &shot, 34, found);
    let (none, samples) = (folder.keep("none", ""), folder.keep("samples", "1\n"));
    told(&add(&shot, &none, "1", &samples).2, &shot, 34, found);
    let (status, out, _) = run!("check", shot);
    assert_eq!(status, 1);
    // a trace's value as text is told without the check
    assert_eq!(run!("value", shot, "0", "STACK").1, "1\n");
    assert_eq!(run!("value", shot, "4", "CHANNEL_NUMBER").1, "5\n");
    // the trace's strings are shown, the place in brackets
    assert!(out.contains("refused (34) in trace 4 at byte "), "{out}");
    assert!(out.contains("[13]") && out.contains("CHANNEL_"), "{out}");
}

#[test]
fn a_sheets_channel_number_is_the_sheets() {
    let folder = Folder::new("words-35");
    let samples = folder.keep("samples", "1\n");
    let one = folder.keep("one", "CHANNEL_NUMBER\t1\n");
    let none = folder.keep("none", "STACK\t1\n");
    let point = folder.keep("point", "CHANNEL_NUMBER\t1.0\n");
    let image = Builder::start(Order::Low, 9, b"").expect("a start");
    let bad =
        "line 1, `CHANNEL_NUMBER\\t1.0`: character 2 is `.` (2Eh), and digits alone are allowed";
    // the first trace is free to choose, but not a bad value
    let with = folder.keep("with", image.bytes());
    told(&add(&with, &point, "1", &samples).2, &point, 35, bad);
    assert_eq!(add(&with, &one, "1", &samples).0, 0);
    let before = std::fs::read(&with).expect("the file");
    let found = "no CHANNEL_NUMBER in the sheet, and trace 0 of the file has `1`";
    told(&add(&with, &none, "1", &samples).2, &none, 35, found);
    told(&add(&with, &point, "1", &samples).2, &point, 35, bad);
    assert_eq!(std::fs::read(&with).expect("the file"), before);
    assert_eq!(add(&with, &one, "1", &samples).0, 0);

    let without = folder.keep("without", image.bytes());
    assert_eq!(add(&without, &none, "1", &samples).0, 0);
    let found = "line 1, `CHANNEL_NUMBER\\t1`: the file's traces have no CHANNEL_NUMBER";
    told(&add(&without, &one, "1", &samples).2, &one, 35, found);
    assert_eq!(add(&without, &none, "1", &samples).0, 0);
    // a file's own sheet is free
    let start = folder.path("start");
    let made = run!("new", start, "--order", "low", "--slots", "1", "--sheet", point);
    assert_eq!(made.0, 0, "{}", made.2);
}

#[test]
fn what_is_wrong_with_samples_is_the_samples() {
    let folder = Folder::new("words-29");
    let image = Builder::start(Order::Low, 9, b"").expect("a start");
    let shot = folder.keep("shot", image.bytes());
    let none = folder.keep("none", "");
    let samples = folder.keep("samples", "1\n2\n40000\n");
    let said = add(&shot, &none, "1", &samples).2;
    told(&said, &samples, 29, "line 3 is `40000`, for code 1");
    let said = add(&shot, &none, "3", &samples).2;
    told(&said, &samples, 28, "3 samples for code 3");
}

#[test]
fn slots_that_cannot_be_and_files_that_grow_too_long() {
    let folder = Folder::new("words-31");
    let shot = folder.path("shot");
    let said = run!("new", shot, "--order", "low", "--slots", "0").2;
    told(&said, &shot, 31, "0 slots");
    let mut image = Builder::start(Order::Low, 2, b"").expect("a start");
    let samples = vec![0; (seg2::MAXIMUM_LENGTH - 80) / 4];
    image.add_integers(b"", 2, &samples).expect("a long trace");
    let long = folder.keep("long", image.bytes());
    let (none, samples) = (folder.keep("none", ""), folder.keep("samples", "1\n"));
    let said = add(&long, &none, "2", &samples).2;
    told(&said, &long, 30, "the file has 67,108,864 bytes already");
}
