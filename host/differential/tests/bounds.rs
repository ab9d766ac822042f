//! No byte beside a lent piece is read, and none of other traces by the question of one
//! (document 02, §5). A test that does not come back is the finding here: with
//! `--nocapture` the last line tells the case.
#![cfg(target_os = "linux")]

use seg2_differential::draw::{rng_of, KINDS};
use seg2_differential::guarded::{Guarded, Sparse};
use seg2_differential::questions::{questions, Question};
use seg2_differential::{Archive, Call, Pair};
use seg2_reference::generate::{plain_file, PlainTrace, Rng};
use seg2_reference::Order;
use std::os::unix::process::ExitStatusExt;
use std::process::{Command, ExitStatus, Stdio};

fn nothing_beside_is_read(seed: u64, at_end: bool) {
    // The longest sheets and the buffers they need.
    let guarded = Guarded::new(400_000, at_end);
    for (i, (name, draw)) in KINDS.iter().enumerate() {
        for number in 0..250 {
            println!("{name}: seed {}, case {number}", seed + i as u64);
            let case = draw(&mut rng_of(seed + i as u64, number));
            let answer = case.compare(&guarded);
            assert_eq!(answer.err(), None);
        }
    }
}

#[test]
fn behind() {
    nothing_beside_is_read(901, true);
}

#[test]
fn before() {
    nothing_beside_is_read(931, false);
}

/// The guards do guard: this test, run once more as a program of its own, reads beside
/// a piece and is ended by a signal.
#[test]
fn a_read_beside_is_noticed() {
    const WHICH: &str = "SEG2_READ_BESIDE";
    if let Some(which) = std::env::var_os(WHICH) {
        Guarded::new(100, which == "behind").read_beside();
        return;
    }
    for which in ["before", "behind"] {
        let status = once_more("a_read_beside_is_noticed", WHICH, which);
        assert!(status.signal().is_some(), "{which}: {status}");
    }
}

/// A test of this program, run as a program of its own with a word in its environment.
fn once_more(test: &str, name: &str, word: &str) -> ExitStatus {
    let program = std::env::current_exe().expect("this program");
    Command::new(program)
        .args(["--exact", test])
        .env(name, word)
        .stdout(Stdio::null())
        .stderr(Stdio::null())
        .status()
        .expect("a run")
}

/// A file whose traces have data of more than two of the guarded pages each, integers and bits
/// by turns, and strings that reach from one page to the next.
fn wide_file() -> Vec<u8> {
    let long = [&b"LINE_ID "[..], &[b'x'; 60_000]].concat();
    let strings = [&b"DELAY 0"[..], &long, b"STACK 10", b"NOTE x"];
    let trace = |code: u8| PlainTrace {
        strings: &strings,
        code,
        count: SAMPLES as u32,
        data: &[0x5A; 200_000],
    };
    plain_file(Order::Low, &[b"CLIENT x"], &[1, 4, 2, 4, 1, 2].map(trace))
}

const SAMPLES: usize = 50_000;

/// Every question of a trace of it.
fn wide_questions(trace: i32) -> Vec<Question> {
    let keys: [&[u8]; 6] = [b"DELAY", b"STACK", b"NOTE", b"", b"UNITS", b"A"];
    questions(&mut Rng::new(952), trace, &keys, 4, SAMPLES)
}

/// Document 02, §5: a question of one trace leaves the pages of all others alone, and those of
/// its own trace that it does not look at, and says what the full question does.
#[test]
fn one_trace_touches_no_other() {
    let bytes = wide_file();
    let sparse = Sparse::new(bytes.len());
    let mut pair = Pair::new(&Archive, 951, &bytes);
    let mut asked = 0;
    for trace in 0..6 {
        for question in wide_questions(trace) {
            let told = sparse.ask(&question, &bytes);
            let full = question.ask_full(&mut pair, bytes.len());
            assert_eq!(full, Ok(told), "{:?}", question.quick());
            asked += 1;
        }
    }
    // Of 24 pages and more, seven at most are open: head, block and strings, or the data.
    assert!(asked > 6 * 40, "{asked}");
    assert!(sparse.closed() >= asked * 17, "{}", sparse.closed());
}

/// A question, by its place among all of a trace, and another whose pages are open.
const TOUCHING: [(&str, Call, Call); 5] = [
    // the full question looks at the whole file
    (
        "the file",
        Call::Keyword { part: 3 },
        Call::Keyword { part: 3 },
    ),
    (
        "the strings",
        Call::StringCount { part: 3 },
        Call::TraceBlock { trace: 3 },
    ),
    (
        "a string behind",
        Call::String { part: 3, index: 2 },
        Call::String { part: 3, index: 0 },
    ),
    (
        "the row of strings",
        Call::Strings { part: 3 },
        Call::String { part: 3, index: 0 },
    ),
    (
        "the data",
        Call::Bits { trace: 3 },
        Call::StringCount { part: 3 },
    ),
];

/// And a page without rights is noticed: a question that is given the pages of another ends
/// the program there.
#[test]
fn a_touched_page_is_noticed() {
    const WHICH: &str = "SEG2_TOUCH_A_PAGE";
    let which = std::env::var(WHICH).unwrap_or_default();
    for (name, asked, open) in TOUCHING {
        if which.is_empty() {
            let status = once_more("a_touched_page_is_noticed", WHICH, name);
            assert!(status.signal().is_some(), "{name}: {status}");
        }
        if which != name {
            continue;
        }
        let bytes = wide_file();
        let all = wide_questions(3);
        let of = |call: Call| all.iter().find(|q| q.full == call).expect("a question");
        let read = of(open).read(&bytes, bytes.len());
        let call = if asked == open {
            asked
        } else {
            of(asked).quick()
        };
        Sparse::new(bytes.len()).call(call, of(asked), &bytes, &read);
        return;
    }
}
