//! Channel numbers in all traces or none: document 02, §7, rows 34 and 35.

use crate::number::{number, Number};
use crate::refusal::{refuse_if, Refusal};
use crate::sheet::sheet_strings;

/// "if one trace block has it, all must"
pub const CHANNEL_NUMBER: &[u8] = b"CHANNEL_NUMBER";

const LARGEST: u64 = 32_767;

/// "The value must be a number by document 01, 1 to 32,767, without point or E." Zeros in
/// front are digits as others are.
pub fn is_channel_number(value: &[u8]) -> bool {
    let plain = !value.iter().any(|c| matches!(c, b'.' | b'E'));
    let in_range = |n: Number| !n.minus && (1..=LARGEST).contains(&n.coefficient);
    plain && number(value).is_ok_and(in_range)
}

/// Row 34's test of a trace, by its value and whether trace 0 has one: "a bad value or
/// where only one of it and trace 0 has the string".
pub(crate) fn breaks_the_rule(value: Option<&[u8]>, first_has_it: bool) -> bool {
    let bad = value.is_some_and(|value| !is_channel_number(value));
    bad || value.is_some() != first_has_it
}

/// Row 35: "a bad value, a missing one, or one where the file's traces have none". Without
/// traces there is none to go by: "the first addition is free to choose".
pub(crate) fn judge_sheet(sheet: &[u8], traces_have_it: Option<bool>) -> Result<(), Refusal> {
    let strings = sheet_strings(sheet)?;
    let own = strings.iter().find(|s| s.keyword == CHANNEL_NUMBER);
    // Only a NOTE has more lines than one.
    let value = own.map(|s| s.lines.concat());
    let others = traces_have_it.unwrap_or(value.is_some());
    let refused = breaks_the_rule(value.as_deref(), others);
    refuse_if(refused, Refusal::file(35, 0))
}
