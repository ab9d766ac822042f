//! Many cases from one seed.

use crate::call::Archive;
use crate::case::Case;
use crate::draw::rng_of;
use crate::pair::Tally;
use crate::text::written;
use seg2_reference::generate::Rng;

/// Draws and compares so many cases. On a difference it panics with the seed, the
/// case's number and the case as text, which a file under `host/fuzz/regressions` may
/// hold.
pub fn all_alike(seed: u64, count: u64, draw: impl Fn(&mut Rng) -> Case) -> Tally {
    let mut tally = Tally::default();
    for number in 0..count {
        let case = draw(&mut rng_of(seed, number));
        match case.compare(&Archive) {
            Ok(more) => tally.add(&more),
            Err(difference) => panic!(
                "seed {seed}, case {number}: {difference}\n{}",
                written(&case)
            ),
        }
    }
    println!("seed {seed}: {count} cases, {} calls compared", tally.calls);
    tally
}
