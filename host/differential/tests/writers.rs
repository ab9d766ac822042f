//! The archive's writers beside the reference: the answer, every byte of the buffer
//! after it, and what stands around the buffer.

use seg2_differential::case::Given;
use seg2_differential::draw::rng_of;
use seg2_differential::growing::add;
use seg2_differential::lent::Lent;
use seg2_differential::{all_alike, draw, Answer, Archive, Call, Case, Library, Pair};
use seg2_reference::{file_of, is_of_check, Row, TraceGiven, ALL};

#[test]
fn starts() {
    let tally = all_alike(301, 40_000, draw::started);
    assert_eq!(tally.numbers(), [5, 25, 26, 27, 30, 31]);
    assert!(tally.met.iter().all(|&met| met == 0 || met > 100));
}

#[test]
fn additions() {
    let tally = all_alike(302, 40_000, draw::added);
    for number in (24..=30).chain([35]) {
        assert!(tally.met[number] > 100, "{number}: {:?}", tally.met);
    }
}

#[test]
fn additions_to_broken_files() {
    let tally = all_alike(303, 30_000, draw::added_to_broken);
    for number in ALL.iter().copied().filter(|&number| is_of_check(number)) {
        assert!(tally.met[number as usize] > 20, "{number}: {:?}", tally.met);
    }
}

/// Row 27's bound: an area of 65,500 bytes is written, one of 65,504 is not.
#[test]
fn the_largest_area() {
    // Offset, "A ", terminator 00, end mark: seven bytes beside the value's.
    for (value, number) in [(65_492, 0), (65_493, 0), (65_494, 27), (70_000, 27)] {
        let sheet = [b"A\t", &vec![b'x'; value][..], b"\n"].concat();
        let mut pair = Pair::new(&Archive, 304, &vec![7; 200_000]);
        pair.lend_sheet(&sheet);
        let start = Call::Start { order: 0, slots: 1 };
        let started = pair.ask(0, start).expect("alike");
        assert_eq!(started.number, number, "{value}");
        pair.lend_sheet(b"");
        let length = pair.ask(0, start).expect("alike").values[0] as usize;
        let row = Row::Integers(vec![1; 4]);
        for code in [1, 2, 3] {
            let (sheet, row) = (sheet.clone(), row.clone());
            let given = Given { sheet, code, row };
            let (added, _) = add(&mut pair, length, &given).expect("alike");
            assert_eq!(added.number, number, "{value}");
            if added.number == 0 {
                // As before the addition, for the next code.
                pair.lend_sheet(b"");
                pair.ask(0, start).expect("alike");
            }
        }
    }
}

/// Row 30's bound: a file of 67,108,864 bytes can be made, and none with one word more.
#[test]
fn the_largest_file() {
    const MOST: usize = 67_108_864;
    // File block, a slot, an empty area; block, an empty area.
    let fixed = 32 + 4 + 4 + 32 + 4;
    for (samples, number) in [((MOST - fixed) / 4, 0), ((MOST - fixed) / 4 + 1, 30)] {
        let mut pair = Pair::new(&Archive, 305, &vec![7; MOST + 8]);
        let start = Call::Start { order: 1, slots: 1 };
        let length = pair.ask(0, start).expect("alike").values[0] as usize;
        let given = Given {
            sheet: Vec::new(),
            code: 2,
            row: Row::Integers(vec![-5; samples]),
        };
        let (answer, _) = add(&mut pair, length, &given).expect("alike");
        assert_eq!(answer.number, number);
        if number == 0 {
            assert_eq!(answer.values[0] as usize, MOST);
            assert_eq!(pair.ask(MOST, Call::Check).expect("alike").number, 0);
        }
    }
}

/// The largest number of slots: the last is filled, and no addition more is taken. The
/// file before that is the reference's, as each addition checks the whole file.
#[test]
fn every_slot() {
    let (slots, traces) = (16_383, 16_382);
    let row = |k: i32| Row::Integers(vec![k]);
    let list: Vec<TraceGiven> = (0..traces)
        .map(|k| TraceGiven {
            sheet: Vec::new(),
            code: 2,
            row: row(k),
        })
        .collect();
    let mut buffer = file_of(0, slots, b"", &list).expect("a file");
    let length = buffer.len();
    // Block, an empty area, one sample; room for two.
    let size = 32 + 4 + 4;
    buffer.resize(length + 2 * size, 7);
    let mut pair = Pair::new(&Archive, 306, &buffer);
    let given = |k: i32| Given {
        sheet: Vec::new(),
        code: 2,
        row: row(k),
    };
    let (answer, _) = add(&mut pair, length, &given(traces)).expect("alike");
    let length = length + size;
    assert_eq!(answer, Answer::good([length as u64]));
    let (answer, _) = add(&mut pair, length, &given(0)).expect("alike");
    assert_eq!(answer, Answer::refused(24, -1, 0));
    pair.lend_integers(&[7]);
    let last = Call::Integers { trace: traces };
    assert_eq!(pair.ask(length, last), Ok(Answer::good([])));
    assert_eq!(pair.memory().integers, [traces]);
}

/// The archive, but the room is asked for in another way.
struct Roomy(fn(Call, usize, &mut Lent) -> Answer);

impl Library for Roomy {
    fn call(&self, call: Call, length: usize, lent: &mut Lent) -> Answer {
        match call {
            Call::StartSize { .. } | Call::AddSize { .. } => (self.0)(call, length, lent),
            _ => Archive.call(call, length, lent),
        }
    }
}

/// The call with another number of samples or slots.
fn counted(call: Call, change: impl Fn(usize) -> usize) -> Call {
    match call {
        Call::AddSize { code, count } => Call::AddSize {
            code,
            count: change(count),
        },
        Call::StartSize { order, slots } => Call::StartSize {
            order,
            slots: change(slots as usize) as u32,
        },
        other => other,
    }
}

/// What a host would be told wrong of the room that it needs.
#[test]
fn another_room_is_noticed() {
    let wrong: [(&str, fn(Call, usize, &mut Lent) -> Answer); 8] = [
        ("room that has to be there", |call, length, lent| {
            let room = lent.contents().buffer.len();
            match Archive.call(call, length, lent) {
                answer if answer.values[0] as usize > room => Answer::refused(30, -1, 0),
                answer => answer,
            }
        }),
        ("one sample or slot more", |call, length, lent| {
            Archive.call(counted(call, |n| n.saturating_add(1)), length, lent)
        }),
        ("no samples", |call, length, lent| {
            Archive.call(counted(call, |n| n.min(1)), length, lent)
        }),
        ("a count of 32 bits", |call, length, lent| {
            Archive.call(counted(call, |n| n as u32 as usize), length, lent)
        }),
        ("whole groups alone", |call, length, lent| {
            Archive.call(counted(call, |n| n & !3), length, lent)
        }),
        ("a sheet without lines", |call, length, lent| {
            let memory = lent.contents();
            lent.sheet.lend(b"");
            let answer = Archive.call(call, length, lent);
            lent.sheet.lend(&memory.sheet);
            answer
        }),
        (
            "a file that is not checked",
            |call, length, lent| match Archive.call(call, length, lent) {
                answer if is_of_check(answer.number as u8) => Answer::good([length as u64]),
                answer => answer,
            },
        ),
        ("the trace without the file", |call, length, lent| {
            let mut answer = Archive.call(call, length, lent);
            answer.values[0] = answer.values[0].saturating_sub(length as u64);
            answer
        }),
    ];
    let draws = [draw::started, draw::added, draw::added_to_broken];
    let cases: Vec<Case> = (0..400)
        .flat_map(|i| draws.map(|draw| draw(&mut rng_of(307, i))))
        .collect();
    for case in &cases {
        assert_eq!(case.compare(&Archive).err(), None);
    }
    for (what, call) in wrong {
        let noticed = cases.iter().any(|case| case.compare(&Roomy(call)).is_err());
        assert!(noticed, "{what}");
    }
}
