//! The answers of all calls in one form, so that one comparison serves them all.

use seg2::raw;

/// How many values the longest answer has beside its refusal.
pub const VALUES: usize = 7;

/// A refusal's number, part and place, and the values in the order of the answer's
/// fields. Doubles are their bits, so that -0 is not 0; values that an answer does
/// not have are 0.
#[derive(Clone, Copy, Debug, PartialEq, Eq)]
pub struct Answer {
    pub number: u32,
    pub part: i32,
    pub place: usize,
    pub values: [u64; VALUES],
    /// The strict verdict beside a lenient answer (document 02, §11); other answers have none.
    pub strict: Option<Verdict>,
}

/// A refusal's number, part and place alone; no refusal is 0, -1 and 0.
#[derive(Clone, Copy, Debug, PartialEq, Eq)]
pub struct Verdict {
    pub number: u32,
    pub part: i32,
    pub place: usize,
}

impl Verdict {
    pub const ACCEPTED: Verdict = Verdict {
        number: 0,
        part: -1,
        place: 0,
    };
}

impl Answer {
    /// No refusal: part -1, place 0.
    pub fn good<const N: usize>(values: [u64; N]) -> Answer {
        Answer::new(0, -1, 0, values)
    }

    /// A refusal has no values.
    pub fn refused(number: u32, part: i32, place: usize) -> Answer {
        Answer::new(number, part, place, [])
    }

    /// The same as a lenient answer, with this strict verdict.
    pub fn beside(self, strict: Verdict) -> Answer {
        let strict = Some(strict);
        Answer { strict, ..self }
    }

    pub fn verdict(&self) -> Verdict {
        let Answer {
            number,
            part,
            place,
            ..
        } = *self;
        Verdict {
            number,
            part,
            place,
        }
    }

    fn new<const N: usize>(number: u32, part: i32, place: usize, values: [u64; N]) -> Answer {
        let mut all = [0; VALUES];
        all[..N].copy_from_slice(&values);
        Answer {
            number,
            part,
            place,
            values: all,
            strict: None,
        }
    }
}

/// A signed number keeps its bits.
pub fn signed(value: i32) -> u64 {
    i64::from(value) as u64
}

macro_rules! told {
    ($kind:ident, $answer:ident => [$($value:expr),*]) => {
        impl From<raw::$kind> for Answer {
            fn from($answer: raw::$kind) -> Answer {
                Answer::new($answer.number, $answer.part, $answer.place, [$($value),*])
            }
        }
    };
}

told!(Verdict, a => []);
told!(File, a => [
    u64::from(a.order),
    a.pointer_room as u64,
    a.trace_count as u64,
    a.string_terminator_size as u64,
    a.line_terminator_size as u64
]);
told!(Trace, a => [
    a.start as u64,
    a.block_size as u64,
    a.data_size as u64,
    a.sample_count as u64,
    u64::from(a.format_code)
]);
told!(Count, a => [a.count as u64]);
told!(Text, a => [
    u64::from(a.found),
    a.key_start as u64,
    a.key_length as u64,
    a.value_start as u64,
    a.value_length as u64
]);
told!(Keyword, a => [u64::from(a.found)]);
told!(Value, a => [a.value_start as u64, a.value_length as u64]);
told!(Number, a => [
    u64::from(a.minus),
    signed(a.power),
    a.coefficient,
    u64::from(a.decimals)
]);
told!(Double, a => [a.value.to_bits()]);
told!(Location, a => [
    u64::from(a.count),
    a.x.to_bits(),
    a.y.to_bits(),
    a.z.to_bits(),
    u64::from(a.x_decimals),
    u64::from(a.y_decimals),
    u64::from(a.z_decimals)
]);
told!(Length, a => [a.length as u64]);

impl<A: Into<Answer>> From<raw::Lenient<A>> for Answer {
    fn from(told: raw::Lenient<A>) -> Answer {
        let strict = Answer::from(told.strict).verdict();
        told.answer.into().beside(strict)
    }
}
