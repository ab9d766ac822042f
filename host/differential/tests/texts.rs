//! Document 02, §4, through the archive: texts that are typed, numbers that are written
//! with their own decimals, and what reads back.

use seg2_differential::case::Kind;
use seg2_differential::draw::Draw;
use seg2_differential::expected::number as number_answer;
use seg2_differential::{all_alike, draw, Answer, Archive, Call, Case, Forged, Pair, Tally};
use seg2_reference::generate::{number_case, number_edges, Rng};
use seg2_reference::worked::{DECIMALS, LONGEST_TEXT, NOT_WRITTEN};

/// A minus is 0 or not: each of these is one.
const MINUSES: [u32; 4] = [1, 2, 1 << 31, u32::MAX];

/// So many cases meet every row that a number has, often, and no other.
fn every_row(seed: u64, draw: Draw) {
    let tally = all_alike(seed, 20_000, draw);
    assert_eq!(tally.numbers(), [20, 21, 30]);
    for number in [0, 20, 21, 30] {
        assert!(tally.met[number] > 2_000, "{number}: {:?}", tally.met);
    }
}

#[test]
fn typed_texts() {
    every_row(801, draw::typed);
}

#[test]
fn forged_numbers() {
    every_row(802, draw::forged);
}

/// Every edge of coefficient, power and decimals with every other, in every room.
#[test]
fn every_edge() {
    let mut all = Tally::default();
    for (seed, number) in (0..).zip(number_edges()) {
        // without a minus there is one number, with one there are these
        let minuses = if number.minus { &MINUSES[..] } else { &[0] };
        for &minus in minuses {
            let kind = Kind::Forged {
                number: Forged::of(number, minus),
            };
            let tally = Case { seed, kind }.compare(&Archive);
            all.add(&tally.unwrap_or_else(|difference| panic!("{difference}")));
        }
    }
    assert_eq!(all.numbers(), [20, 21, 30]);
    println!("{} calls, {:?}", all.calls, all.met);
}

/// The text that a number is written as, in a room of so many bytes.
fn written(room: usize, number: Forged) -> (Answer, Vec<u8>) {
    let mut pair = Pair::new(&Archive, 803, &[]);
    pair.lend_text(&vec![b'_'; room]);
    let answer = pair.ask(0, Call::WriteNumber(number)).expect("alike");
    (answer, pair.memory().text.clone())
}

#[test]
fn worked_texts() {
    for &(text, number) in DECIMALS {
        let mut pair = Pair::new(&Archive, 804, &[]);
        pair.lend_text(text.as_bytes());
        let read = pair.ask(0, Call::ReadNumber);
        assert_eq!(read, Ok(number_answer(number)), "{text}");
        for minus in MINUSES {
            let (answer, bytes) = written(30, Forged::of(number, minus));
            assert_eq!(answer, Answer::good([text.len() as u64]));
            let behind = vec![b'_'; 30 - text.len()];
            assert_eq!(bytes, [text.as_bytes(), &behind].concat());
        }
    }
    for &(number, row) in NOT_WRITTEN {
        for room in [0, 30] {
            let (answer, bytes) = written(room, Forged::of(number, 1));
            assert_eq!(answer, Answer::refused(row.into(), -1, 0), "{number:?}");
            assert_eq!(bytes, vec![b'_'; room]);
        }
    }
    // 24 bytes are the least that every text fits.
    let (_, longest) = DECIMALS[DECIMALS.len() - 1];
    assert_eq!(LONGEST_TEXT.len(), 24);
    let (answer, bytes) = written(23, Forged::of(longest, 1));
    assert_eq!(answer, Answer::refused(30, -1, 0));
    assert_eq!(bytes, [b'_'; 23]);
}

/// Every number that the generator makes is written in the form that its making tells.
#[test]
fn texts_in_their_own_form() {
    let mut rng = Rng::new(805);
    let mut texts = 0;
    for _ in 0..20_000 {
        let case = number_case(&mut rng);
        let (Ok(number), Some(text)) = (case.number, case.written) else {
            continue;
        };
        let (answer, bytes) = written(text.len(), Forged::of(number, 1));
        assert_eq!(answer, Answer::good([text.len() as u64]));
        assert_eq!(bytes, text);
        texts += 1;
    }
    assert!(texts > 5_000, "{texts}");
}
