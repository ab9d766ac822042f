//! Document 02, §7: channel numbers in all traces or none, through the archive; and that a
//! library which keeps the rule otherwise is noticed.

use seg2_differential::case::{Given, Kind};
use seg2_differential::channels::{Rule, Turn, RIGHT};
use seg2_differential::draw::{self, rng_of, KINDS};
use seg2_differential::growing::{add, start};
use seg2_differential::{all_alike, Answer, Archive, Call, Case, Pair};
use seg2_reference::generate::{plain_file, PlainTrace, WAYS};
use seg2_reference::worked::{CHANNEL_NUMBERS, NO_CHANNEL_NUMBERS};
use seg2_reference::{is_channel_number, number, Order, Row};

/// Damages by rows 17 and 34 and files that grow, then some cases of every kind.
fn cases() -> Vec<Case> {
    let mut cases = Vec::new();
    for (i, way) in WAYS.iter().enumerate() {
        if matches!(way.number, 17 | 34) {
            let damaged = |number| draw::damaged_by(&mut rng_of(1_101 + i as u64, number), way);
            cases.extend((0..20).map(damaged));
        }
    }
    let more = |number| {
        let rng = |seed| rng_of(seed, number);
        [
            draw::valid(&mut rng(1_201)),
            draw::damaged_twice(&mut rng(1_202)),
            draw::added(&mut rng(1_203)),
            draw::grown(&mut rng(1_204)),
            draw::grown_from_image(&mut rng(1_205)),
        ]
    };
    cases.extend((0..400).flat_map(more));
    for (i, (_, draw)) in KINDS.iter().enumerate() {
        cases.extend((0..40).map(|number| draw(&mut rng_of(1_001 + i as u64, number))));
    }
    cases
}

/// A value that is good once a point and a zero behind it are gone.
fn with_a_point(value: &[u8]) -> bool {
    is_channel_number(value.strip_suffix(b".0").unwrap_or(value))
}

fn with_an_e(value: &[u8]) -> bool {
    is_channel_number(value.strip_suffix(b"E0").unwrap_or(value))
}

/// Digits alone, whatever their number.
fn of_any_length(value: &[u8]) -> bool {
    let zeros = value.iter().take_while(|&&c| c == b'0').count();
    is_channel_number(&value[zeros..])
}

fn without_zeros_in_front(value: &[u8]) -> bool {
    is_channel_number(value) && value[0] != b'0'
}

/// By the number's coefficient, whatever stands around it.
fn by_coefficient(value: &[u8], good: fn(u64) -> bool) -> bool {
    let digits = value.iter().all(u8::is_ascii_digit);
    digits && number(value).is_ok_and(|n| good(n.coefficient))
}

/// Each wrong rule, by its fault.
#[rustfmt::skip]
fn wrong_rules() -> Vec<(&'static str, Rule)> {
    vec![
        ("only trace 0's value is judged", Rule { judged: |k| k == 0, ..RIGHT }),
        ("trace 0's value is not judged", Rule { judged: |k| k > 0, ..RIGHT }),
        ("no value is judged", Rule { judged: |_| false, ..RIGHT }),
        ("a trace without one is taken where trace 0 has one", Rule { beside: |own, first| !own || first, ..RIGHT }),
        ("a trace with one is taken where trace 0 has none", Rule { beside: |own, first| own || !first, ..RIGHT }),
        ("some traces may have one", Rule { beside: |_, _| true, ..RIGHT }),
        ("32,768 is good", Rule { good: |v| by_coefficient(v, |n| (1..=32_768).contains(&n)), ..RIGHT }),
        ("32,767 is bad", Rule { good: |v| by_coefficient(v, |n| (1..=32_766).contains(&n)), ..RIGHT }),
        ("0 is good", Rule { good: |v| by_coefficient(v, |n| n <= 32_767), ..RIGHT }),
        ("numbers of 16 bits", Rule { good: |v| by_coefficient(v, |n| (1..=32_767).contains(&(n & 0xFFFF))), ..RIGHT }),
        ("1.0 is good", Rule { good: with_a_point, ..RIGHT }),
        ("1E0 is good", Rule { good: with_an_e, ..RIGHT }),
        ("-1 is good", Rule { good: |v| is_channel_number(v.strip_prefix(b"-").unwrap_or(v)), ..RIGHT }),
        ("+1 is good", Rule { good: |v| is_channel_number(v.strip_prefix(b"+").unwrap_or(v)), ..RIGHT }),
        ("a blank behind is good", Rule { good: |v| is_channel_number(v.trim_ascii_end()), ..RIGHT }),
        ("19 digits are good", Rule { good: of_any_length, ..RIGHT }),
        ("007 is bad", Rule { good: without_zeros_in_front, ..RIGHT }),
        ("an empty value is good", Rule { good: |v| v.is_empty() || is_channel_number(v), ..RIGHT }),
        ("34 before 17", Rule { turn: Turn::Before17, ..RIGHT }),
        ("34 behind all traces", Rule { turn: Turn::Last, ..RIGHT }),
        ("34 at p", Rule { place: 0, ..RIGHT }),
        ("34 at the first string's keyword", Rule { place: 34, ..RIGHT }),
        ("34 not in the addition's check", Rule { of_file: false, ..RIGHT }),
        ("35 before 27", Rule { behind_35: &[27, 28, 29, 30], ..RIGHT }),
        ("35 before 26", Rule { behind_35: &[26, 27, 28, 29, 30], ..RIGHT }),
        ("35 before 24", Rule { behind_35: &[24, 28, 29, 30], ..RIGHT }),
        ("35 behind 28", Rule { behind_35: &[29, 30], ..RIGHT }),
        ("35 behind 29", Rule { behind_35: &[28, 30], ..RIGHT }),
        ("35 behind 30", Rule { behind_35: &[28, 29], ..RIGHT }),
        ("the first addition has to have one", Rule { added: |own, first| own == first.unwrap_or(true), ..RIGHT }),
        ("the first addition has to have none", Rule { added: |own, first| own == first.unwrap_or(false), ..RIGHT }),
        ("one may be missing in a sheet", Rule { added: |own, first| !own || first != Some(false), ..RIGHT }),
        ("one may stand in any sheet", Rule { added: |own, first| own || first != Some(true), ..RIGHT }),
        ("any sheet is taken", Rule { added: |_, _| true, ..RIGHT }),
        ("the file's own string is judged", Rule { of_files_own: true, ..RIGHT }),
    ]
}

/// The rule around a reader that does not know it is right, so what is noticed below is the
/// fault and nothing else.
#[test]
fn the_right_rule_is_alike() {
    for case in cases() {
        if let Err(difference) = case.compare(&RIGHT) {
            panic!("{difference}\n{}", seg2_differential::text::written(&case));
        }
    }
}

#[test]
fn each_wrong_rule_is_noticed() {
    let cases = cases();
    for (fault, rule) in wrong_rules() {
        let noticed = cases.iter().any(|case| case.compare(&rule).is_err());
        assert!(noticed, "{fault}");
    }
}

/// Growing files alone notice what a writer gets wrong, as do files that are only read what
/// a reader does.
#[test]
fn growing_files_notice_a_wrong_addition() {
    let grown = |number| {
        let mut rng = rng_of(1_301, number);
        [draw::grown(&mut rng), draw::grown_from_image(&mut rng)]
    };
    let cases: Vec<Case> = (0..600).flat_map(grown).collect();
    assert!(cases
        .iter()
        .all(|case| matches!(case.kind, Kind::Grown { .. })));
    for (fault, rule) in wrong_rules() {
        let of_addition = ["addition", "sheet", "35"];
        if of_addition.iter().any(|word| fault.contains(word)) {
            let noticed = cases.iter().any(|case| case.compare(&rule).is_err());
            assert!(noticed, "{fault}");
        }
    }
}

// ---- the archive

fn file_of_values(order: Order, values: &[Option<&str>]) -> Vec<u8> {
    let texts = values
        .iter()
        .map(|v| v.map(|v| format!("CHANNEL_NUMBER {v}")));
    let texts: Vec<Option<String>> = texts.collect();
    let strings: Vec<Vec<&[u8]>> = texts
        .iter()
        .map(|t| t.iter().map(|t| t.as_bytes()).collect())
        .collect();
    let traces: Vec<PlainTrace> = strings.iter().map(|s| PlainTrace::of_strings(s)).collect();
    plain_file(order, &[b"UNITS METERS"], &traces)
}

/// The answer of the check, on both sides.
fn checked(bytes: &[u8]) -> Answer {
    let mut pair = Pair::new(&Archive, 1_401, bytes);
    pair.ask(bytes.len(), Call::Check).expect("alike")
}

/// Where trace k's strings start: p+32.
fn strings_start(bytes: &[u8], k: usize) -> usize {
    let slot: [u8; 4] = bytes[32 + 4 * k..36 + 4 * k].try_into().expect("four");
    let p = match bytes[0] {
        0x55 => u32::from_le_bytes(slot),
        _ => u32::from_be_bytes(slot),
    };
    p as usize + 32
}

#[test]
fn worked_values_in_traces() {
    for order in [Order::Low, Order::High] {
        for value in CHANNEL_NUMBERS {
            let bytes = file_of_values(order, &[Some(value), Some("1"), Some(value)]);
            assert_eq!(checked(&bytes), Answer::good([]), "{value}");
        }
        for value in NO_CHANNEL_NUMBERS {
            for k in 0..3 {
                let mut values = [Some("1"); 3];
                values[k] = Some(value);
                let bytes = file_of_values(order, &values);
                let place = strings_start(&bytes, k);
                let no = Answer::refused(34, k as i32, place);
                assert_eq!(checked(&bytes), no, "{value}");
            }
        }
    }
}

#[test]
fn three_traces_of_twelve() {
    let mut values = [None; 12];
    for k in [4, 7, 11] {
        values[k] = Some("5");
    }
    let bytes = file_of_values(Order::Low, &values);
    let no = Answer::refused(34, 4, strings_start(&bytes, 4));
    assert_eq!(checked(&bytes), no);
    values[0] = Some("1");
    let bytes = file_of_values(Order::High, &values);
    let no = Answer::refused(34, 1, strings_start(&bytes, 1));
    assert_eq!(checked(&bytes), no);
    let bytes = file_of_values(Order::Low, &[Some("5"); 12]);
    assert_eq!(checked(&bytes), Answer::good([]));
    let bytes = file_of_values(Order::High, &[None; 12]);
    assert_eq!(checked(&bytes), Answer::good([]));
}

/// "the first addition is free to choose"
#[test]
fn worked_values_in_sheets() {
    let given = |sheet: &str| Given {
        sheet: sheet.into(),
        code: 2,
        row: Row::Integers(vec![1, 2, 3]),
    };
    let line = |value: &str| given(&format!("CHANNEL_NUMBER\t{value}\n"));
    let no = Answer::refused(35, -1, 0);
    let plain = given("STACK\t1\n");
    for first in [None, Some(plain.clone()), Some(line("1"))] {
        let mut pair = Pair::new(&Archive, 1_403, &[7; 6_000]);
        let begun = seg2_differential::case::Start {
            order: 0,
            slots: 60,
            sheet: b"CHANNEL_NUMBER\tnone of a trace\n".to_vec(),
        };
        let mut length = start(&mut pair, &begun).expect("alike").values[0] as usize;
        if let Some(first) = &first {
            let (answer, _) = add(&mut pair, length, first).expect("alike");
            assert_eq!(answer.number, 0);
            length = answer.values[0] as usize;
        }
        for value in NO_CHANNEL_NUMBERS {
            let (answer, _) = add(&mut pair, length, &line(value)).expect("alike");
            assert_eq!(answer, no, "{value}");
        }
        let chosen = first.as_ref().map(|first| *first != plain);
        for value in CHANNEL_NUMBERS {
            let (answer, _) = add(&mut pair, length, &line(value)).expect("alike");
            match chosen {
                Some(false) => assert_eq!(answer, no, "{value}"),
                _ => {
                    assert_eq!(answer.number, 0, "{value}");
                    length = answer.values[0] as usize;
                    assert_eq!(pair.ask(length, Call::Check), Ok(Answer::good([])));
                }
            }
        }
        // The first of them has chosen, where none had.
        let (answer, _) = add(&mut pair, length, &plain).expect("alike");
        assert_eq!(answer.number == 0, chosen == Some(false));
    }
}

/// Every way of row 34, by every question and by an addition.
#[test]
fn each_damage_of_row_34() {
    for (i, way) in WAYS.iter().enumerate() {
        if way.number == 34 {
            let tally = all_alike(1_500 + i as u64, 300, |rng| draw::damaged_by(rng, way));
            assert!(tally.met[34] >= 300 * 12, "{}", way.name);
        }
    }
    let tally = all_alike(1_600, 12_000, draw::added_to_broken);
    assert!(tally.met[34] > 100, "{:?}", tally.met);
}
