//! Every refusal number that the archive can give is met through it.

use seg2_differential::draw::KINDS;
use seg2_differential::{all_alike, Tally};
use seg2_reference::ALL;

/// 19 is the listing program's.
#[test]
fn every_number_is_met() {
    let mut tally = Tally::default();
    for (i, (name, draw)) in KINDS.iter().enumerate() {
        println!("{name}");
        tally.add(&all_alike(501 + i as u64, 1_500, draw));
    }
    let given = ALL.iter().filter(|&&number| number != 19);
    let expected: Vec<usize> = given.map(|&number| number.into()).collect();
    assert_eq!(tally.numbers(), expected);
    println!("{:?}", tally.met);
}
