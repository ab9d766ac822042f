//! Numbers, doubles and locations: document 01, "Numbers in values", rows 20 to 23. Their
//! decimals, and a number written back as text: document 02, §4.

use crate::refusal::{refuse_if, Refusal};
use crate::strings::is_separator;

/// "The answer is sign, coefficient as written and power of ten; zero has sign
/// plus."
#[derive(Clone, Copy, Debug, PartialEq, Eq, Hash)]
pub struct Number {
    pub minus: bool,
    pub coefficient: u64,
    pub power: i32,
    /// "The number answer should also carry how many digits stood after the point."
    pub decimals: u32,
}

/// "The answer keeps how many there were; absent y and z are 0."
#[derive(Clone, Copy, Debug, PartialEq)]
pub struct Location {
    pub x: f64,
    pub y: f64,
    pub z: f64,
    /// 1 or 3.
    pub count: u8,
    /// "Locations then keep this count for each value": of x, y and z, 0 for an absent one.
    pub decimals: [u32; 3],
}

/// "At most 18 digits before E, leading zeros counted, and at most 2 after it."
const MOST_DIGITS: usize = 18;
const MOST_EXPONENT_DIGITS: usize = 2;

/// "only if the coefficient is at most 9,007,199,254,740,991 and the power lies
/// in -15 to 15"
const LARGEST_COEFFICIENT: u64 = 9_007_199_254_740_991;
const LARGEST_POWER: u32 = 15;

/// A number as written: rows 20, then 21; place 0.
pub fn number(text: &[u8]) -> Result<Number, Refusal> {
    let written = Written::from(text).ok_or(Refusal::file(20, 0))?;
    let digits = [written.whole, written.fraction].concat();
    let too_many = digits.len() > MOST_DIGITS || written.exponent.len() > MOST_EXPONENT_DIGITS;
    refuse_if(too_many, Refusal::file(21, 0))?;
    let coefficient = value_of(&digits);
    let exponent = value_of(written.exponent) as i32;
    let sign = if written.exponent_minus { -1 } else { 1 };
    Ok(Number {
        minus: written.minus && coefficient != 0,
        coefficient,
        power: sign * exponent - written.fraction.len() as i32,
        decimals: written.fraction.len() as u32,
    })
}

/// "The app also writes a number answer back as text for a sheet": the text's length, or
/// "20 zero with minus, 21 more than 18 digits or more than 2 after E, 30 no room, in that
/// order", place 0. Any number may be given; bytes past the text stay.
pub fn write_number(room: &mut [u8], number: Number) -> Result<usize, Refusal> {
    let minus_zero = number.minus && number.coefficient == 0;
    refuse_if(minus_zero, Refusal::file(20, 0))?;
    let text = text_of(number).ok_or(Refusal::file(21, 0))?;
    let place = room.get_mut(..text.len()).ok_or(Refusal::file(30, 0))?;
    place.copy_from_slice(text.as_bytes());
    Ok(text.len())
}

/// "exactly that many decimals, at least one digit before the point and otherwise no
/// leading zero, then E with the power plus the count where this is not 0"; nothing where
/// row 21 refuses it.
fn text_of(number: Number) -> Option<String> {
    let own = number.coefficient.to_string();
    let decimals = number.decimals as usize;
    // At least one digit before the point: zeros in front, where there are too few.
    let count = own.len().max(decimals.saturating_add(1));
    if count > MOST_DIGITS {
        return None;
    }
    let digits = format!("{own:0>count$}");
    let (whole, fraction) = digits.split_at(count - decimals);
    let mut text = String::from(if number.minus { "-" } else { "" });
    text += whole;
    if decimals > 0 {
        text += ".";
        text += fraction;
    }
    match i64::from(number.power) + i64::from(number.decimals) {
        0 => {}
        exponent if exponent.abs().to_string().len() > MOST_EXPONENT_DIGITS => return None,
        exponent => text += &format!("E{exponent}"),
    }
    Some(text)
}

/// "the coefficient, multiplied or divided once by ten to the absolute power
/// (power 0: neither), negated last if minus": rows 20, 21, then 22; place 0.
pub fn double(text: &[u8]) -> Result<f64, Refusal> {
    let number = number(text)?;
    let outside =
        number.coefficient > LARGEST_COEFFICIENT || number.power.unsigned_abs() > LARGEST_POWER;
    refuse_if(outside, Refusal::file(22, 0))?;
    // Both are exact: below 2^53, and 10^15 is below 2^53 too.
    let coefficient = number.coefficient as f64;
    let ten_to_power = 10_u64.pow(number.power.unsigned_abs()) as f64;
    let magnitude = match number.power {
        0 => coefficient,
        1.. => coefficient * ten_to_power,
        _ => coefficient / ten_to_power,
    };
    Ok(if number.minus { -magnitude } else { magnitude })
}

/// "x alone or x, y and z as doubles, parted by spaces or tabs; separators at
/// either end are dropped": "23 first, then value by value; place is the value's
/// start in the text (0 for 23)".
pub fn location(text: &[u8]) -> Result<Location, Refusal> {
    let starts = value_starts(text);
    refuse_if(!matches!(starts.len(), 1 | 3), Refusal::file(23, 0))?;
    let mut values = [0.0; 3];
    let mut decimals = [0; 3];
    for (i, &start) in starts.iter().enumerate() {
        let written = first_value(&text[start..]);
        let at_start = |refusal: Refusal| Refusal::file(refusal.number, start);
        values[i] = double(written).map_err(at_start)?;
        decimals[i] = number(written).map_err(at_start)?.decimals;
    }
    let [x, y, z] = values;
    Ok(Location {
        x,
        y,
        z,
        count: starts.len() as u8,
        decimals,
    })
}

/// Where values start: no separator, and at the text's start or after one.
fn value_starts(text: &[u8]) -> Vec<usize> {
    (0..text.len())
        .filter(|&i| !is_separator(text[i]) && (i == 0 || is_separator(text[i - 1])))
        .collect()
}

/// The text up to the first separator.
fn first_value(text: &[u8]) -> &[u8] {
    text.split(|&c| is_separator(c)).next().unwrap_or(text)
}

/// The pieces of a number as written.
struct Written<'a> {
    minus: bool,
    whole: &'a [u8],
    /// Empty without a point.
    fraction: &'a [u8],
    exponent_minus: bool,
    /// Empty without E.
    exponent: &'a [u8],
}

impl<'a> Written<'a> {
    /// "A minus or nothing; one or more digits; optionally a point with one or
    /// more digits; optionally E, a minus or nothing, one or more digits. No
    /// comma, no plus, no spaces."
    fn from(text: &'a [u8]) -> Option<Written<'a>> {
        let (minus, text) = minus_or_nothing(text);
        let (whole, text) = digits(text)?;
        let (fraction, text) = match text.strip_prefix(b".") {
            Some(after) => digits(after)?,
            None => (&text[..0], text),
        };
        let (exponent_minus, exponent, text) = match text.strip_prefix(b"E") {
            Some(after) => {
                let (minus, after) = minus_or_nothing(after);
                let (exponent, after) = digits(after)?;
                (minus, exponent, after)
            }
            None => (false, &text[..0], text),
        };
        text.is_empty().then_some(Written {
            minus,
            whole,
            fraction,
            exponent_minus,
            exponent,
        })
    }
}

fn minus_or_nothing(text: &[u8]) -> (bool, &[u8]) {
    match text.strip_prefix(b"-") {
        Some(after) => (true, after),
        None => (false, text),
    }
}

/// One or more digits and what follows them.
fn digits(text: &[u8]) -> Option<(&[u8], &[u8])> {
    let length = text.iter().take_while(|c| c.is_ascii_digit()).count();
    (length > 0).then(|| text.split_at(length))
}

/// The value of at most 18 digits.
fn value_of(digits: &[u8]) -> u64 {
    digits
        .iter()
        .fold(0, |value, digit| value * 10 + u64::from(digit - b'0'))
}
