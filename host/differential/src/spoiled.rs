//! Libraries with one fault each. A comparison that does not notice one compares too
//! little.

use crate::answer::{Answer, Verdict};
use crate::call::{Archive, Call, Library};
use crate::lent::{Frame, Lent, Pattern};

/// What is wrong with every answer of one function.
#[derive(Clone, Copy, Debug, PartialEq, Eq)]
pub enum Fault {
    Number,
    Part,
    Place,
    /// The value with an index; -0 for 0 where it is a double.
    Value(usize),
    /// The same of the strict verdict beside a lenient answer.
    StrictNumber,
    StrictPart,
    StrictPlace,
    /// A byte beside the answer's place.
    Beside,
    Buffer(At),
    Key(At),
    Sheet(At),
    Integers(At),
    Patterns(At),
    Classes(At),
    Strings(At),
    Text(At),
    /// Nothing is written and the answer given all the same.
    Nothing,
}

/// Where a lent piece is changed.
#[derive(Clone, Copy, Debug, PartialEq, Eq)]
pub enum At {
    Before,
    First,
    Last,
    Behind,
}

/// The archive, but for one fault in one function.
pub struct Spoiled {
    pub function: &'static str,
    pub fault: Fault,
}

impl Library for Spoiled {
    fn call(&self, call: Call, length: usize, lent: &mut Lent) -> Answer {
        let before = lent.clone();
        let mut answer = Archive.call(call, length, lent);
        if call.name() != self.function {
            return answer;
        }
        match self.fault {
            Fault::Number => answer.number ^= 1,
            Fault::Part => answer.part ^= 1,
            Fault::Place => answer.place ^= 1,
            Fault::Value(index) => answer.values[index] ^= 1 << 63,
            Fault::StrictNumber => in_strict(&mut answer, |strict| strict.number ^= 1),
            Fault::StrictPart => in_strict(&mut answer, |strict| strict.part ^= 1),
            Fault::StrictPlace => in_strict(&mut answer, |strict| strict.place ^= 1),
            Fault::Beside => lent.beside_answer = true,
            Fault::Buffer(at) => change(&mut lent.buffer, at, |byte| byte ^ 1),
            Fault::Key(at) => change(&mut lent.key, at, |byte| byte ^ 1),
            Fault::Sheet(at) => change(&mut lent.sheet, at, |byte| byte ^ 1),
            Fault::Integers(at) => change(&mut lent.integers, at, |value| value ^ 1),
            Fault::Patterns(at) => change(&mut lent.patterns, at, |value| value ^ (1 << 63)),
            Fault::Classes(at) => change(&mut lent.classes, at, |class| class ^ 1),
            Fault::Strings(at) => change(&mut lent.strings, at, |value| value ^ 1),
            Fault::Text(at) => change(&mut lent.text, at, |byte| byte ^ 1),
            Fault::Nothing => *lent = before,
        }
        answer
    }
}

/// An answer without a strict verdict has none to change.
fn in_strict(answer: &mut Answer, change: fn(&mut Verdict)) {
    if let Some(strict) = &mut answer.strict {
        change(strict);
    }
}

/// A piece without elements has none to change.
fn change<T: Pattern>(frame: &mut Frame<T>, at: At, other: impl Fn(T) -> T) {
    let size = frame.size();
    let (all, front) = frame.whole();
    let place = match at {
        At::Before => front - 1,
        At::First => front,
        At::Last => (front + size).saturating_sub(1),
        At::Behind => front + size,
    };
    if size > 0 || matches!(at, At::Before | At::Behind) {
        all[place] = other(all[place]);
    }
}
