//! The comparison notices each single fault in each function: a test that cannot fail
//! says nothing.

use seg2_differential::draw::{forged, rng_of, typed, KINDS};
use seg2_differential::lent::Lent;
use seg2_differential::spoiled::{At, Fault, Spoiled};
use seg2_differential::{Answer, Archive, Call, Case, Forged, Library};

/// A few cases of each kind, enough that every function is called and accepted.
fn cases() -> Vec<Case> {
    let mut cases = Vec::new();
    for (i, (_, draw)) in KINDS.iter().enumerate() {
        cases.extend((0..12).map(|number| draw(&mut rng_of(601 + i as u64, number))));
    }
    cases
}

const PLACES: [At; 4] = [At::Before, At::First, At::Last, At::Behind];

/// A lent piece, by its fault at a place.
type Piece = fn(At) -> Fault;

/// The faults of a function: its answer's values, and the memory that it is lent.
fn faults(values: usize, lent: &[Piece]) -> Vec<Fault> {
    let mut faults = vec![Fault::Number, Fault::Part, Fault::Place];
    faults.extend((0..values).map(Fault::Value));
    for piece in lent {
        faults.extend(PLACES.map(piece));
    }
    faults
}

#[test]
fn each_fault_is_noticed() {
    let buffer: Piece = Fault::Buffer;
    let key: Piece = Fault::Key;
    let sheet: Piece = Fault::Sheet;
    let integers: Piece = Fault::Integers;
    let patterns: Piece = Fault::Patterns;
    let classes: Piece = Fault::Classes;
    let strings: Piece = Fault::Strings;
    let text: Piece = Fault::Text;
    let functions: [(&str, usize, &[Piece]); 44] = [
        ("check", 0, &[buffer]),
        ("file_block", 5, &[buffer]),
        ("trace_block", 5, &[buffer]),
        ("string_count", 1, &[buffer]),
        ("string", 5, &[buffer]),
        ("strings", 0, &[buffer, strings]),
        ("keyword", 1, &[buffer, key]),
        ("value", 2, &[buffer, key]),
        ("number", 4, &[buffer, key]),
        ("double", 1, &[buffer, key]),
        ("location", 7, &[buffer, key]),
        ("integers", 0, &[buffer, integers]),
        ("bits", 0, &[buffer, patterns, classes]),
        ("quick_trace_block", 5, &[buffer]),
        ("quick_string_count", 1, &[buffer]),
        ("quick_string", 5, &[buffer]),
        ("quick_strings", 0, &[buffer, strings]),
        ("quick_keyword", 1, &[buffer, key]),
        ("quick_value", 2, &[buffer, key]),
        ("quick_number", 4, &[buffer, key]),
        ("quick_double", 1, &[buffer, key]),
        ("quick_location", 7, &[buffer, key]),
        ("quick_integers", 0, &[buffer, integers]),
        ("quick_bits", 0, &[buffer, patterns, classes]),
        ("lenient_check", 0, &[buffer]),
        ("lenient_file_block", 5, &[buffer]),
        ("lenient_trace_block", 5, &[buffer]),
        ("lenient_string_count", 1, &[buffer]),
        ("lenient_string", 5, &[buffer]),
        ("lenient_strings", 0, &[buffer, strings]),
        ("lenient_keyword", 1, &[buffer, key]),
        ("lenient_value", 2, &[buffer, key]),
        ("lenient_number", 4, &[buffer, key]),
        ("lenient_double", 1, &[buffer, key]),
        ("lenient_location", 7, &[buffer, key]),
        ("lenient_integers", 0, &[buffer, integers]),
        ("lenient_bits", 0, &[buffer, patterns, classes]),
        ("read_number", 4, &[text]),
        ("write_number", 1, &[text]),
        ("start", 1, &[buffer, sheet]),
        ("start_size", 1, &[sheet]),
        ("add_integers", 1, &[buffer, sheet, integers]),
        ("add_bits", 1, &[buffer, sheet, patterns]),
        ("add_size", 1, &[buffer, sheet]),
    ];
    let cases = cases();
    for case in &cases {
        assert_eq!(case.compare(&Archive).err(), None);
    }
    let mut tried = 0;
    for (function, values, lent) in functions {
        let mut faults = faults(values, lent);
        let full = function.trim_start_matches("quick_");
        let full = full.trim_start_matches("lenient_");
        let lenient = function.starts_with("lenient");
        let fills = matches!(full, "integers" | "bits" | "strings");
        // All others answer in registers.
        if lenient || full != "check" && !fills {
            faults.push(Fault::Beside);
        }
        if lenient {
            faults.extend([Fault::StrictNumber, Fault::StrictPart, Fault::StrictPlace]);
        }
        let writers = ["start", "write_number", "add_integers", "add_bits"];
        if fills || writers.contains(&function) {
            faults.push(Fault::Nothing);
        }
        for fault in faults {
            let spoiled = Spoiled { function, fault };
            let noticed = cases.iter().any(|case| case.compare(&spoiled).is_err());
            assert!(noticed, "{function}: {fault:?}");
            tried += 1;
        }
    }
    println!("{tried} faults noticed");
}

/// What becomes of a number on its way.
type Change = fn(&mut Forged);

/// The archive, but it writes another number than it was given.
struct Misled(Change);

impl Library for Misled {
    fn call(&self, mut call: Call, length: usize, lent: &mut Lent) -> Answer {
        if let Call::WriteNumber(number) = &mut call {
            (self.0)(number);
        }
        Archive.call(call, length, lent)
    }
}

/// Document 02, §4: what a writer of numbers gets wrong by taking less of them than it is
/// given, or by showing another precision.
#[test]
fn a_writer_that_takes_another_number_is_noticed() {
    let wrong: [(&str, Change); 7] = [
        ("0.25 for 0.250", |n| {
            while n.decimals > 0 && n.coefficient % 10 == 0 {
                n.coefficient /= 10;
                n.power = n.power.wrapping_add(1);
                n.decimals -= 1;
            }
        }),
        ("no decimals", |n| n.decimals = 0),
        ("a minus of 1 alone", |n| n.minus = (n.minus == 1).into()),
        ("a minus before zero", |n| {
            n.minus *= u32::from(n.coefficient > 0)
        }),
        ("a coefficient of 63 bits", |n| {
            n.coefficient &= u64::MAX >> 1
        }),
        ("decimals of 8 bits", |n| n.decimals &= 0xFF),
        ("a power of 16 bits", |n| n.power = (n.power as i16).into()),
    ];
    let cases = |i: u64| {
        let [mut a, mut b] = [630, 631].map(|seed| rng_of(seed, i));
        [typed(&mut a), forged(&mut b)]
    };
    let cases: Vec<Case> = (0..400).flat_map(cases).collect();
    for case in &cases {
        assert_eq!(case.compare(&Archive).err(), None);
    }
    for (what, change) in wrong {
        let misled = Misled(change);
        let noticed = cases.iter().any(|case| case.compare(&misled).is_err());
        assert!(noticed, "{what}");
    }
}
