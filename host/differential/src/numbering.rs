//! A number and its text: read, written in every room, and read back (document 02, §4).

use crate::answer::Answer;
use crate::call::{Call, Forged};
use crate::pair::{Difference, Pair};
use seg2_reference::generate::Rng;

/// More room than the longest text needs, which has 24 bytes.
const MOST_ROOM: usize = 30;

/// What was read is written in so many bytes.
const ENOUGH: usize = 24;

/// A text that a user typed: "Every answer that the reader gave reads back as the same
/// answer."
pub fn type_in(pair: &mut Pair, text: &[u8], rng: &mut Rng) -> Result<(), Difference> {
    pair.lend_text(text);
    let read = pair.ask(0, Call::ReadNumber)?;
    if read.number != 0 {
        return Ok(());
    }
    let number = given_back(&read);
    match write_in_rooms(pair, number, rng)? {
        Some(length) if length <= ENOUGH => Ok(()),
        _ => {
            let what = format!("not written in {ENOUGH} bytes");
            Err(pair.differs(0, Call::WriteNumber(number), what))
        }
    }
}

/// A number answer as the app gives it back.
fn given_back(read: &Answer) -> Forged {
    let [minus, power, coefficient, decimals, ..] = read.values;
    Forged {
        minus: minus as u32,
        coefficient,
        power: power as i32,
        decimals: decimals as u32,
    }
}

/// A number written in every room from none to more than enough; in exactly enough it is
/// read back. Answers the text's length, nothing where every room is refused.
pub fn write_in_rooms(
    pair: &mut Pair,
    number: Forged,
    rng: &mut Rng,
) -> Result<Option<usize>, Difference> {
    let call = Call::WriteNumber(number);
    let mut written = None;
    for room in 0..=MOST_ROOM {
        let before = rng.junk(room);
        pair.lend_text(&before);
        let answer = pair.ask(0, call)?;
        let length = answer.values[0] as usize;
        // Said of the bytes alone, beside the reference's own writer.
        if pair.memory().text[length..] != before[length..] {
            return Err(pair.differs(0, call, "changed more than it may".into()));
        }
        if answer.number == 0 {
            written = Some(length);
        }
        if answer.number == 0 && room == length {
            read_back(pair, number)?;
        }
    }
    Ok(written)
}

/// The text that was written last fills all bytes that are lent.
fn read_back(pair: &mut Pair, number: Forged) -> Result<(), Difference> {
    let read = pair.ask(0, Call::ReadNumber)?;
    let same = Forged {
        minus: number.minus.min(1),
        ..number
    };
    match read.number == 0 && given_back(&read) == same {
        true => Ok(()),
        false => {
            let what = format!("{number:?} reads back as {read:?}");
            Err(pair.differs(0, Call::ReadNumber, what))
        }
    }
}
