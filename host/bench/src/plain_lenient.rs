//! Older recorders (document 02, §11) as plain Rust reads them: a question behind the lenient
//! check, and beside its answer what the strict check says. Both checks are made, as the archive
//! makes them.

use crate::plain;
use crate::plain_file::{self, area, check_leniently, data, letters_of, value_in};
use crate::plain_file::{two, Checked, Refused};

/// A lenient answer, and the strict check's row where it has one.
pub type Told<T> = (Result<T, Refused>, Option<Refused>);

fn answered<'a, T>(
    buffer: &'a [u8],
    length: usize,
    ask: impl FnOnce(Checked<'a>) -> Result<T, Refused>,
) -> Told<T> {
    let strict = plain_file::check(buffer, length, false).err();
    (check_leniently(buffer, length).and_then(ask), strict)
}

pub fn check(buffer: &[u8], length: usize) -> Told<()> {
    answered(buffer, length, |_| Ok(()))
}

/// The same answers with one check less of a file that keeps the rules: what the strict check
/// accepts, the lenient one accepts.
pub fn check_as_needed(buffer: &[u8], length: usize) -> Told<()> {
    match plain_file::check(buffer, length, false) {
        Ok(_) => (Ok(()), None),
        Err(refused) => (check_leniently(buffer, length).map(|_| ()), Some(refused)),
    }
}

/// The strings of a part of a checked file: where the text of each starts, and the text.
fn texts<'a>(
    found: &Checked<'a>,
    part: i32,
) -> Result<impl Iterator<Item = (usize, &'a [u8])>, Refused> {
    let (start, end) = area(found, part)?;
    let (high, terminator) = (found.high, found.string.len());
    let mut rest = &found.file[start..end];
    Ok(std::iter::from_fn(move || {
        let (&bytes, _) = rest.split_first_chunk()?;
        let offset = match high {
            true => two::<true>(bytes),
            false => two::<false>(bytes),
        };
        let place = end - rest.len() + 2;
        let text = rest.get(2..offset.checked_sub(terminator)?)?;
        rest = &rest[offset..];
        Some((place, text))
    }))
}

/// Whether a keyword is the asked one: by its upper-case form, while the asked one is taken as
/// it is given.
fn counts_as(key: &[u8], asked: &[u8]) -> bool {
    let same = |(k, a): (&u8, &u8)| k.to_ascii_uppercase() == *a;
    key.len() == asked.len() && key.iter().zip(asked).all(same)
}

/// Start and size of the value of the first such keyword; both 0 where it is absent.
pub fn value(buffer: &[u8], length: usize, part: i32, key: &[u8]) -> Told<(usize, usize)> {
    answered(buffer, length, |found| {
        let sought = texts(&found, part)?.find_map(|(place, text)| {
            let letters = letters_of(text);
            let from = || value_in(text, letters);
            let place = || (place + from(), text.len() - from());
            counts_as(&text[..letters], key).then(place)
        });
        Ok(sought.unwrap_or((0, 0)))
    })
}

/// Start and length of keyword and value of each string, in one row: 32 where it has another
/// length.
pub fn strings(buffer: &[u8], length: usize, part: i32, row: &mut [usize]) -> Told<()> {
    answered(buffer, length, |found| {
        if row.len() != 4 * texts(&found, part)?.count() {
            return Err((32, -1, 0));
        }
        for (four, (place, text)) in row.chunks_exact_mut(4).zip(texts(&found, part)?) {
            let letters = letters_of(text);
            let value = value_in(text, letters);
            four.copy_from_slice(&[place, letters, place + value, text.len() - value]);
        }
        Ok(())
    })
}

/// The samples of a trace of codes 1 to 3.
pub fn integers(buffer: &[u8], length: usize, trace: i32, row: &mut [i32]) -> Told<()> {
    answered(buffer, length, |found| {
        let (code, data) = data(&found, trace, 1..=3, [row.len(); 2])?;
        plain::read_integers(code, data, found.high, row);
        Ok(())
    })
}
