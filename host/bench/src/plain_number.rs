//! Numbers in values as plain Rust reads them: one pass over the text, the limits behind it.

use crate::plain_file::{is, Refused, BLANK};

/// How many values, the values, and how many digits stood after the point of each.
pub type Location = (u32, [f64; 3], [u32; 3]);

const MOST: u64 = 9_007_199_254_740_991;

/// Ten to the power of each index.
const POWERS: [f64; 16] = [
    1e0, 1e1, 1e2, 1e3, 1e4, 1e5, 1e6, 1e7, 1e8, 1e9, 1e10, 1e11, 1e12, 1e13, 1e14, 1e15,
];

/// The digits that a text begins with, behind a number; how many they are. What goes past 64
/// bits has too many digits and is not looked at.
fn digits(text: &[u8], number: u64) -> (u64, usize) {
    let mut number = number;
    for (i, c) in text.iter().enumerate() {
        let digit = c.wrapping_sub(b'0');
        if digit > 9 {
            return (number, i);
        }
        number = number.wrapping_mul(10).wrapping_add(digit.into());
    }
    (number, text.len())
}

/// The number behind a minus or none, and whether there is one.
fn signed(text: &[u8]) -> (bool, &[u8]) {
    match text.strip_prefix(b"-") {
        Some(rest) => (true, rest),
        None => (false, text),
    }
}

/// The value as a double, with its decimals: 20, 21, then 22.
fn double(text: &[u8]) -> Result<(f64, u32), u32> {
    let (minus, rest) = signed(text);
    let (mut coefficient, whole) = digits(rest, 0);
    let mut rest = &rest[whole..];
    let mut fraction = 0;
    if let Some(behind) = rest.strip_prefix(b".") {
        (coefficient, fraction) = digits(behind, coefficient);
        if fraction == 0 {
            return Err(20);
        }
        rest = &behind[fraction..];
    }
    let (mut exponent, mut size) = (0, 0);
    if let Some(behind) = rest.strip_prefix(b"E") {
        let (down, behind) = signed(behind);
        let (number, count) = digits(behind, 0);
        if count == 0 {
            return Err(20);
        }
        (exponent, size, rest) = (number as i64, count, &behind[count..]);
        if down {
            exponent = exponent.wrapping_neg();
        }
    }
    if whole == 0 || !rest.is_empty() {
        return Err(20);
    }
    if whole + fraction > 18 || size > 2 {
        return Err(21);
    }
    let power = exponent - fraction as i64;
    let (Some(&ten), true) = (
        POWERS.get(power.unsigned_abs() as usize),
        coefficient <= MOST,
    ) else {
        return Err(22);
    };
    let coefficient_as_double = coefficient as f64;
    let size = match power >= 0 {
        true => coefficient_as_double * ten,
        false => coefficient_as_double / ten,
    };
    // a zero has no minus
    let value = if minus && coefficient != 0 {
        -size
    } else {
        size
    };
    Ok((value, fraction as u32))
}

/// One value or three, parted by blanks: 23, then 20 to 22 value by value.
pub fn location(text: &[u8]) -> Result<Location, Refused> {
    let mut spans = [(0, 0); 3];
    let mut count = 0;
    let mut at = 0;
    while let Some(gap) = text[at..].iter().position(|&c| !is(BLANK, c)) {
        let start = at + gap;
        let size = text[start..].iter().position(|&c| is(BLANK, c));
        at = size.map_or(text.len(), |size| start + size);
        if let Some(span) = spans.get_mut(count) {
            *span = (start, at);
        }
        count += 1;
    }
    if count != 1 && count != 3 {
        return Err((23, -1, 0));
    }
    let (mut values, mut decimals) = ([0.0; 3], [0; 3]);
    for (i, &(start, end)) in spans[..count].iter().enumerate() {
        (values[i], decimals[i]) = double(&text[start..end]).map_err(|row| (row, -1, start))?;
    }
    Ok((count as u32, values, decimals))
}
