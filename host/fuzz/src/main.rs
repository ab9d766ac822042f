//! Compares the archive with the reference for as long as one likes.
//!
//! Usage: `seg2_fuzz [SECONDS] [SEED]`. Without a seed the clock gives one. A difference
//! is made smaller, saved under `host/fuzz/regressions` and ends the run; the test
//! `regressions` runs what is saved there.

use seg2_differential::draw::{rng_of, KINDS};
use seg2_differential::shrink::shrunk;
use seg2_differential::text::written;
use seg2_differential::{Archive, Case, Difference, Tally};
use std::path::PathBuf;
use std::process::ExitCode;
use std::time::{Duration, Instant, SystemTime, UNIX_EPOCH};

/// How long a difference may be made smaller.
const SHRINKING: Duration = Duration::from_secs(60);

/// How often it says where it is.
const TELLING: Duration = Duration::from_secs(10);

fn main() -> ExitCode {
    let words: Vec<String> = std::env::args().skip(1).collect();
    let number = |i: usize, otherwise: u64| match words.get(i) {
        None => Some(otherwise),
        Some(word) => word.parse().ok(),
    };
    let (Some(seconds), Some(seed), true) = (number(0, 60), number(1, clock()), words.len() <= 2)
    else {
        eprintln!("usage: seg2_fuzz [SECONDS] [SEED]");
        return ExitCode::from(2);
    };
    println!("seed {seed}, {seconds} s");
    run(seed, Duration::from_secs(seconds))
}

fn clock() -> u64 {
    let now = SystemTime::now().duration_since(UNIX_EPOCH);
    now.map_or(0, |now| now.as_nanos() as u64)
}

/// Cases of every kind by turns, until the time is over or something differs.
fn run(seed: u64, time: Duration) -> ExitCode {
    let began = Instant::now();
    let mut tally = Tally::default();
    let mut number = 0;
    let mut told = began;
    while began.elapsed() < time {
        // Where a run was that ends without a word, as by a crash.
        if told.elapsed() > TELLING {
            println!("case {number}");
            told = Instant::now();
        }
        let (name, draw) = KINDS[number as usize % KINDS.len()];
        let case = draw(&mut rng_of(seed, number));
        match case.compare(&Archive) {
            Ok(more) => tally.add(&more),
            Err(difference) => {
                println!("seed {seed}, case {number} ({name}) differs: {difference}");
                return save(seed, number, &case);
            }
        }
        number += 1;
    }
    println!(
        "{number} cases, {} calls compared, no difference",
        tally.calls
    );
    println!("refusals met: {:?}", tally.numbers());
    ExitCode::SUCCESS
}

/// Makes the case smaller and keeps it.
fn save(seed: u64, number: u64, case: &Case) -> ExitCode {
    let small = shrunk(case, &Archive, SHRINKING);
    let difference = small.compare(&Archive).err();
    let what = difference
        .as_ref()
        .map_or(String::new(), Difference::to_string);
    println!("made smaller: {what}");
    let folder = PathBuf::from(concat!(env!("CARGO_MANIFEST_DIR"), "/regressions"));
    let path = folder.join(format!("{seed}-{number}.case"));
    let saved =
        std::fs::create_dir_all(&folder).and_then(|()| std::fs::write(&path, written(&small)));
    match saved {
        Ok(()) => println!("saved as {}", path.display()),
        Err(error) => println!("not saved ({error}):\n{}", written(&small)),
    }
    ExitCode::FAILURE
}
