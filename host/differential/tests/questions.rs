//! Every question of the archive beside the reference: number, part, place, values and
//! all lent memory, on valid, damaged, changed and random input.

use seg2_differential::{all_alike, draw, Answer, Archive, Call, Pair};
use seg2_reference::generate::{Model, Scope, WAYS};
use seg2_reference::Order;

#[test]
fn valid_files() {
    let tally = all_alike(201, 8_000, draw::valid);
    assert!(tally.met[0] > 500_000, "{:?}", tally.met);
    for number in 0..2_000 {
        let laid = Model::random(&mut draw::rng_of(211, number)).lay();
        let answer = Pair::new(&Archive, number, &laid.buffer).ask(laid.length, Call::Check);
        assert_eq!(answer, Ok(Answer::good([])), "case {number}");
    }
}

#[test]
fn numbers_and_locations() {
    let tally = all_alike(202, 8_000, draw::numbers);
    for number in 20..=23 {
        assert!(tally.met[number] > 2_000, "{number}");
    }
}

#[test]
fn long_rows() {
    all_alike(203, 8_000, draw::long_rows);
}

/// All named ways, each many times, by its own row: a damage that the check did not
/// meet would leave its row's count low.
#[test]
fn each_damage() {
    for (i, way) in WAYS.iter().enumerate() {
        let tally = all_alike(2_040 + i as u64, 400, |rng| draw::damaged_by(rng, way));
        // An image without traces is met by row 5 before anything else.
        let row = match way.scope {
            Scope::Image => 5,
            Scope::Both | Scope::Reading => usize::from(way.number),
        };
        assert!(tally.met[row] >= 400 * 12, "{}: {:?}", way.name, tally.met);
    }
}

#[test]
fn several_damages() {
    all_alike(205, 16_000, draw::damaged_twice);
}

#[test]
fn mutated_files() {
    let tally = all_alike(206, 40_000, draw::mutated_bytes);
    assert_eq!(tally.numbers()[..18], (1..=18).collect::<Vec<_>>()[..]);
}

#[test]
fn random_bytes() {
    all_alike(207, 40_000, draw::random_bytes);
}

/// Images without traces: every question answers 5 at place 6.
#[test]
fn images_without_traces() {
    let tally = all_alike(208, 4_000, draw::image);
    assert!(tally.met[5] > 4_000 * 12);
    assert_eq!(tally.numbers()[1..], [5], "{:?}", tally.met);
}

/// Row 1's bounds with a buffer that reaches them.
#[test]
fn the_largest_lengths() {
    const MOST: usize = 67_108_864;
    let mut rng = draw::rng_of(209, 0);
    let mut buffer = Model::random(&mut rng).lay().buffer;
    buffer.resize(MOST + 1, 0);
    let mut pair = Pair::new(&Archive, 209, &buffer);
    let mut number = |length| {
        let answer = pair.ask(length, Call::Check);
        answer.map(|answer| answer.number)
    };
    assert_eq!(number(MOST), Ok(0));
    assert_eq!(number(MOST + 1), Ok(1));
    assert_eq!(number(MOST + 2), Ok(1));
}

/// Document 01's unmarked values: M=65532 passes row 4 and 0 does not; B=32 passes row
/// 10 and 28 does not.
#[test]
fn unmarked_values() {
    let mut rng = draw::rng_of(210, 0);
    let laid = loop {
        let laid = Model::random(&mut rng).lay();
        if laid.file.order == Order::Low {
            break laid;
        }
    };
    let with = |place: usize, value: u16| {
        let mut buffer = laid.buffer.clone();
        buffer[place..place + 2].copy_from_slice(&value.to_le_bytes());
        let answer = Pair::new(&Archive, 210, &buffer).ask(laid.length, Call::Check);
        answer.expect("alike").number
    };
    assert_ne!(with(4, 65532), 4);
    assert_eq!(with(4, 0), 4);
    let p = laid.file.traces[0].p as usize;
    assert_ne!(with(p + 2, 32), 10);
    assert_eq!(with(p + 2, 28), 10);
}
