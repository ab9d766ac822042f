//! The proved listing, and what the listing program prints, beside the reference's: files
//! that are valid, damaged or any bytes, and the cases that document 01 names.

use seg2_probe as proved;
use seg2_reference::generate::*;
use seg2_reference::worked::{example, EXAMPLE_LISTED};
use seg2_reference::{listing, listing_program, Order, MAXIMUM_LENGTH};

/// A byte that stands behind the listing, which must stay.
const BEHIND: u8 = 0xA5;

type Proved = fn(&[u8], &mut [u8]) -> Option<usize>;

/// A proved listing: into a row of the least length that is enough, and not into one
/// that is shorter by one.
fn listed(proved: Proved, input: &[u8]) -> Vec<u8> {
    let room = 16 * input.len() + 64;
    let mut short = vec![BEHIND; room - 1];
    assert_eq!(proved(input, &mut short), None);
    assert!(short.iter().all(|&b| b == BEHIND));
    let mut out = vec![BEHIND; room];
    let length = proved(input, &mut out).expect("room");
    assert!(out[length..].iter().all(|&b| b == BEHIND));
    out.truncate(length);
    out
}

/// The listing of a file, and what the program prints of it.
fn same(input: &[u8]) -> Vec<u8> {
    let text = listed(proved::list, input);
    let expected = listing(input);
    assert_eq!(
        String::from_utf8_lossy(&text),
        String::from_utf8_lossy(&expected)
    );
    let printed = listed(proved::program, input);
    let expected = listing_program(input);
    assert_eq!(
        String::from_utf8_lossy(&printed),
        String::from_utf8_lossy(&expected)
    );
    text
}

fn is(input: &[u8], expected: &str) {
    assert_eq!(String::from_utf8(same(input)).unwrap(), expected);
}

/// A file of traces of code 1 with no samples, terminators 0 and 0Ah.
fn file(order: Order, strings: &[&[u8]], traces: &[&[&[u8]]]) -> Vec<u8> {
    let traces: Vec<PlainTrace> = traces.iter().map(|t| PlainTrace::of_strings(t)).collect();
    plain_file(order, strings, &traces)
}

/// Also as the listing program's own test has it.
#[test]
fn the_worked_file() {
    is(&example(), EXAMPLE_LISTED);
    let stored = include_bytes!("../../../crates/seg2_list/stdin");
    assert_eq!(stored[..], example());
}

#[test]
fn high_byte_first_and_several_traces() {
    let traces: Vec<&[&[u8]]> = vec![&[b"STACK 1"], &[], &[b"A", b"B  x y "]];
    let bytes = file(Order::High, &[b"UNITS METERS"], &traces);
    is(
        &bytes,
        "SEG2\thigh\t3\t12\nS\tF\tUNITS\tMETERS\nT\t0\t1\t0\nS\t0\tSTACK\t1\n\
         T\t1\t1\t0\nT\t2\t1\t0\nS\t2\tA\t\nS\t2\tB\tx y \n",
    );
}

#[test]
fn notes_with_empty_lines_and_tabs() {
    let bytes = file(
        Order::Low,
        &[b"NOTE"],
        &[&[b"NOTES a\tb", b"NOTE \n\nlast\tline\n"]],
    );
    is(
        &bytes,
        "SEG2\tlow\t1\t4\nS\tF\tNOTE\t\nT\t0\t1\t0\nS\t0\tNOTES\ta b\n\
         S\t0\tNOTE\t\nS\t0\tNOTE\t\nS\t0\tNOTE\tlast line\nS\t0\tNOTE\t\n",
    );
}

#[test]
fn refusals_of_each_part() {
    is(&[], "R\t1\tF\t0\n");
    is(&[0; 32], "R\t2\tF\t0\n");
    let traces: Vec<&[&[u8]]> = vec![&[b"STACK 1"], &[b"STACK 2"], &[b"stack 3"]];
    let bytes = file(Order::Low, &[b"UNITS METERS"], &traces);
    is(&bytes, "R\t16\t2\t184\n");
    let bytes = file(Order::Low, &[b"B 1", b"A 2"], &traces);
    is(&bytes, "R\t17\tF\t50\n");
    let mut image = file(Order::Low, &[], &[]);
    image[4] = 4;
    is(&image, "R\t5\tF\t6\n");
    let mut pointer = file(Order::Low, &[], &[&[], &[]]);
    pointer[36] += 1;
    is(&pointer, "R\t8\t1\t36\n");
}

/// 19 is the program's alone: the listing takes a file of any length.
#[test]
fn the_size_of_the_input() {
    let lines = "SEG2\tlow\t1\t4\nS\tF\tUNITS\tMETERS\nT\t0\t1\t0\nS\t0\tSTACK\t1\n";
    let prints = |input: &[u8], text: &str| {
        assert_eq!(listed(proved::program, input), text.as_bytes());
    };
    let too_long = "R\t19\tF\t0\n";
    let mut bytes = file(Order::Low, &[b"UNITS METERS"], &[&[b"STACK 1"]]);
    bytes.resize(65_536, 0xEE);
    is(&bytes, lines);
    prints(&bytes, lines);
    bytes.push(0xEE);
    is(&bytes, lines);
    prints(&bytes, too_long);
    is(&[0; 65_537], "R\t2\tF\t0\n");
    prints(&[0; 65_537], too_long);
    let long = too_long_for_listing(&mut Rng::new(5));
    same(&long);
    prints(&long, too_long);
}

/// More digits than a file of 65,536 bytes can need, and the longest file there is.
#[test]
fn large_files() {
    let data = vec![0; 200_000];
    let trace = PlainTrace {
        code: 1,
        count: 100_000,
        data: &data,
        ..PlainTrace::default()
    };
    let mut bytes = plain_file(Order::High, &[b"UNITS METERS"], &[trace]);
    let lines = "SEG2\thigh\t1\t4\nS\tF\tUNITS\tMETERS\nT\t0\t1\t100000\n";
    is(&bytes, lines);
    // Zeros, which take no memory before they are written: the row has a gigabyte.
    let mut out = vec![0; 16 * (MAXIMUM_LENGTH + 1) + 64];
    for (size, text) in [
        (MAXIMUM_LENGTH, lines),
        (MAXIMUM_LENGTH + 1, "R\t1\tF\t0\n"),
    ] {
        bytes.resize(size, 0xEE);
        let length = proved::list(&bytes, &mut out).expect("room");
        assert_eq!(&out[..length], text.as_bytes());
        assert_eq!(listing(&bytes), text.as_bytes());
    }
}

/// The longest listing of its kind: as many traces as the slots allow, and a NOTE of
/// nothing but line terminators in a trace whose number has the most digits.
#[test]
fn the_most_lines() {
    let note = [&b"NOTE "[..], &[b'\n'; 40_000]].concat();
    let bytes = file(Order::Low, &[b"UNITS METERS"], &[&[&note[..]]]);
    assert_eq!(
        same(&bytes).iter().filter(|&&b| b == b'\n').count(),
        3 + 40_001
    );
    let none: &[&[u8]] = &[];
    let bytes = file(Order::High, &[], &vec![none; 1600]);
    assert_eq!(same(&bytes).iter().filter(|&&b| b == b'\n').count(), 1601);
}

#[test]
fn valid_files() {
    let mut rng = Rng::new(81);
    for _ in 0..4000 {
        let laid = Model::random(&mut rng).lay();
        same(&laid.buffer[..laid.length]);
    }
}

#[test]
fn damaged_files() {
    let mut rng = Rng::new(82);
    for way in WAYS {
        for _ in 0..40 {
            let damaged = damaged(&mut rng, way);
            let length = damaged.length.min(damaged.buffer.len());
            same(&damaged.buffer[..length]);
        }
    }
}

#[test]
fn mutated_and_random_bytes() {
    let mut rng = Rng::new(83);
    for _ in 0..6000 {
        let (buffer, length) = mutated(&mut rng);
        same(&buffer[..length.min(buffer.len())]);
    }
    for _ in 0..2000 {
        let bytes: Vec<u8> = (0..rng.between(0, 200)).map(|_| rng.byte()).collect();
        same(&bytes);
    }
}
