//! One trace, quickly (document 02, §5), as plain Rust does it: the rows of the check for
//! what is read, and nothing else of the file.

use crate::plain;
use crate::plain_file::{
    fixed, head, image, letters_of, next, pointer, rows_fit, two, value_in, Checked, Fixed, Next,
    Refused,
};
use crate::plain_number::{self, Location};

/// Rows 1 and 2, then what is asked, by the file's order.
macro_rules! asked {
    ($buffer:ident, $length:ident, $question:ident($($given:expr),*)) => {{
        let file = image($buffer, $length)?;
        match (file[0], file[1]) {
            (0x55, 0x3A) => $question::<false>(file, $($given),*),
            (0x3A, 0x55) => $question::<true>(file, $($given),*),
            _ => Err((2, -1, 0)),
        }
    }};
}

/// Where a trace's block stands, and what it tells: p, B, D, S and the code.
pub type Block = (usize, usize, usize, usize, u32);

/// The block of a trace.
pub fn block(buffer: &[u8], length: usize, trace: i32) -> Result<Block, Refused> {
    asked!(buffer, length, block_of(trace))
}

fn block_of<const HIGH: bool>(file: &[u8], trace: i32) -> Result<Block, Refused> {
    let Alone { p, block, .. } = alone::<HIGH>(file, trace)?;
    Ok((p, block.b, block.d, block.s, block.code.into()))
}

/// One trace by itself.
struct Alone<'a> {
    file: &'a [u8],
    head: Checked<'a>,
    trace: i32,
    p: usize,
    block: Fixed,
}

/// Rows 3 to 7, 18, 8 with no other trace before it, 9 to 13.
#[inline(always)]
fn alone<const HIGH: bool>(file: &[u8], trace: i32) -> Result<Alone<'_>, Refused> {
    let head = head::<HIGH>(file, false)?;
    let k = usize::try_from(trace).ok().filter(|&k| k < head.n);
    let k = k.ok_or((18, -1, 0))?;
    let p = pointer::<HIGH>(&head, k, 32 + head.m)?;
    let block = fixed::<HIGH>(file, trace, p)?;
    Ok(Alone {
        file,
        head,
        trace,
        p,
        block,
    })
}

impl<'a> Alone<'a> {
    /// Its strings from the first on, each judged by 14 to 17, until `stop` answers of one;
    /// nothing where their end comes first. `stop` is given keyword, value, and where the
    /// value ends.
    #[inline(always)]
    fn sought<const HIGH: bool, A>(
        &self,
        mut stop: impl FnMut(&'a [u8], &'a [u8], usize) -> Option<A>,
    ) -> Result<Option<A>, Refused> {
        let end = self.p + self.block.b;
        let mut rest = &self.file[self.p + 32..end];
        let mut previous: &[u8] = &[];
        if rest.is_empty() {
            return Ok(None);
        }
        loop {
            let place = end - rest.len();
            match next::<HIGH, false>(&self.head, rest, previous) {
                Next::End => return Ok(None),
                Next::Refused(number) => return Err((number, self.trace, place)),
                Next::Text { key, value, behind } => {
                    let stopped = stop(key, value, end - behind.len() - self.head.string.len());
                    if stopped.is_some() {
                        return Ok(stopped);
                    }
                    previous = key;
                    rest = behind;
                }
            }
        }
    }

    /// How many strings it has.
    #[inline(always)]
    fn count<const HIGH: bool>(&self) -> Result<usize, Refused> {
        let mut count = 0;
        self.sought::<HIGH, ()>(|_, _, _| {
            count += 1;
            None
        })?;
        Ok(count)
    }
}

/// Start and size of the value of a trace's keyword; both 0 where it is absent.
pub fn value(
    buffer: &[u8],
    length: usize,
    trace: i32,
    key: &[u8],
) -> Result<(usize, usize), Refused> {
    asked!(buffer, length, value_of(trace, key))
}

#[inline(always)]
fn value_of<const HIGH: bool>(
    file: &[u8],
    trace: i32,
    key: &[u8],
) -> Result<(usize, usize), Refused> {
    let found = alone::<HIGH>(file, trace)?.sought::<HIGH, _>(|here, value, end| {
        if here == key {
            return Some((end - value.len(), value.len()));
        }
        passed(here, key).then_some((0, 0))
    })?;
    Ok(found.unwrap_or((0, 0)))
}

/// Keywords rise, and NOTE comes last: it passes all others, and nothing passes it.
fn passed(here: &[u8], key: &[u8]) -> bool {
    key != b"NOTE" && (here > key || here == b"NOTE")
}

/// The value as a location.
pub fn location(buffer: &[u8], length: usize, trace: i32, key: &[u8]) -> Result<Location, Refused> {
    asked!(buffer, length, location_of(trace, key))
}

fn location_of<const HIGH: bool>(file: &[u8], trace: i32, key: &[u8]) -> Result<Location, Refused> {
    let (start, size) = value_of::<HIGH>(file, trace, key)?;
    plain_number::location(&file[start..start + size])
}

/// How many strings a trace has.
pub fn string_count(buffer: &[u8], length: usize, trace: i32) -> Result<usize, Refused> {
    asked!(buffer, length, count_of(trace))
}

fn count_of<const HIGH: bool>(file: &[u8], trace: i32) -> Result<usize, Refused> {
    alone::<HIGH>(file, trace)?.count::<HIGH>()
}

/// Start and length of keyword and value of each string, in one row: 32 where it has another
/// length. All are judged before the first place is written, as a refusal leaves the row.
pub fn strings(buffer: &[u8], length: usize, trace: i32, row: &mut [usize]) -> Result<(), Refused> {
    asked!(buffer, length, strings_of(trace, row))
}

fn strings_of<const HIGH: bool>(file: &[u8], trace: i32, row: &mut [usize]) -> Result<(), Refused> {
    let own = alone::<HIGH>(file, trace)?;
    if row.len() != 4 * own.count::<HIGH>()? {
        return Err((32, -1, 0));
    }
    let mut at = own.p + 32;
    for four in row.chunks_exact_mut(4) {
        let offset = two::<HIGH>([file[at], file[at + 1]]);
        let body = &file[at + 2..at + offset - own.head.string.len()];
        let letters = letters_of(body);
        let value = value_in(body, letters);
        four.copy_from_slice(&[at + 2, letters, at + 2 + value, body.len() - value]);
        at += offset;
    }
    Ok(())
}

/// The data block of a trace whose code is one of these, rows of whose samples have such
/// lengths: 33, then 32; with its code and whether the high byte comes first.
#[inline(always)]
fn data<const HIGH: bool>(
    file: &[u8],
    trace: i32,
    codes: std::ops::RangeInclusive<u8>,
    rows: [usize; 2],
) -> Result<(u8, bool, &[u8]), Refused> {
    let Alone { p, block, .. } = alone::<HIGH>(file, trace)?;
    rows_fit(block.code, block.s, codes, rows)?;
    let start = p + block.b;
    Ok((block.code, HIGH, &file[start..start + block.d]))
}

/// The samples of a trace of codes 1 to 3.
pub fn integers(buffer: &[u8], length: usize, trace: i32, row: &mut [i32]) -> Result<(), Refused> {
    let (code, high, data) = asked!(buffer, length, data(trace, 1..=3, [row.len(); 2]))?;
    plain::read_integers(code, data, high, row);
    Ok(())
}

/// The patterns of a trace of codes 4 and 5, and their classes.
pub fn bits(
    buffer: &[u8],
    length: usize,
    trace: i32,
    row: &mut [u64],
    classes: &mut [u8],
) -> Result<(), Refused> {
    let rows = [row.len(), classes.len()];
    let (code, high, data) = asked!(buffer, length, data(trace, 4..=5, rows))?;
    plain::read_bits(code, data, high, row, classes);
    Ok(())
}
