//! Small words for answers that are known.

use crate::refusal::Refusal;

pub(super) fn refused<T>(number: u8, place: usize) -> Result<T, Refusal> {
    Err(Refusal::file(number, place))
}

/// The first refusal of several in their order, or the value.
pub(super) fn first_of<T>(refusals: &[Option<Refusal>], value: T) -> Result<T, Refusal> {
    match refusals.iter().flatten().next() {
        Some(refusal) => Err(*refusal),
        None => Ok(value),
    }
}

pub(super) fn when(test: bool, number: u8) -> Option<Refusal> {
    test.then(|| Refusal::file(number, 0))
}
