//! Every refusal number occurs in the generated cases.

mod common;

use common::number_of;
use seg2_reference::generate::*;
use seg2_reference::*;
use std::collections::BTreeSet;

fn samples_number(case: &SampleCase) -> u8 {
    match &case.question {
        SampleQuestion::Integers { row, .. } => {
            let mut row = vec![0; *row];
            let answer = samples_as_integers(&case.buffer, case.length, case.trace, &mut row);
            number_of(&answer)
        }
        SampleQuestion::Bits { row, classes, .. } => {
            let (mut row, mut classes) = (vec![0; *row], vec![0; *classes]);
            let (buffer, length) = (&case.buffer, case.length);
            let answer = samples_as_bits(buffer, length, case.trace, &mut row, &mut classes);
            number_of(&answer)
        }
    }
}

/// What the listing program answers, by its refusal line.
fn listed_number(input: &[u8]) -> u8 {
    let lines = String::from_utf8_lossy(&listing_program(input)).into_owned();
    match lines.strip_prefix("R\t").and_then(|l| l.split('\t').next()) {
        Some(number) => number.parse().expect("a number"),
        None => 0,
    }
}

fn addition_number(case: AdditionCase) -> u8 {
    let mut buffer = case.buffer;
    let answer = add(&mut buffer, case.length, &case.sheet, case.code, &case.row);
    number_of(&answer)
}

#[test]
fn every_number_is_met() {
    let mut rng = Rng::new(41);
    let mut met = BTreeSet::new();
    for way in WAYS {
        let case = damaged(&mut rng, way);
        met.insert(number_of(&check(&case.buffer, case.length)));
    }
    met.insert(listed_number(&too_long_for_listing(&mut rng)));
    for _ in 0..400 {
        met.insert(samples_number(&sample_case(&mut rng)));
        met.insert(number_of(&double(&number_case(&mut rng).text)));
        met.insert(number_of(&location(&location_case(&mut rng).text)));
        let mut case = start_case(&mut rng);
        let answer = start(&mut case.buffer, case.order, case.slots, &case.sheet);
        met.insert(number_of(&answer));
        met.insert(addition_number(addition_case(&mut rng)));
    }
    assert!(met.remove(&0), "some are accepted");
    assert_eq!(met.into_iter().collect::<Vec<u8>>(), ALL);
}

/// The table of ways has several for each row of the check, and names them once.
#[test]
fn every_row_of_the_check_has_its_ways() {
    let names: BTreeSet<&str> = WAYS.iter().map(|way| way.name).collect();
    assert_eq!(names.len(), WAYS.len());
    for number in ALL.iter().copied().filter(|&number| is_of_check(number)) {
        let ways = WAYS.iter().filter(|way| way.number == number).count();
        let least = if number == 3 || number == 12 { 1 } else { 2 };
        assert!(ways >= least, "row {number}");
    }
}

/// The same seed gives the same cases.
#[test]
fn cases_are_repeatable() {
    let draw = |seed| {
        let mut rng = Rng::new(seed);
        let laid = Model::random(&mut rng).lay();
        let damaged: Vec<Vec<u8>> = WAYS.iter().map(|w| damaged(&mut rng, w).buffer).collect();
        (laid.buffer, damaged, addition_case(&mut rng).after)
    };
    assert_eq!(draw(7), draw(7));
    assert_ne!(draw(7), draw(8));
}
