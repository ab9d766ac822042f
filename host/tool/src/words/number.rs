//! Rows 18 and 20 to 23: traces and values that are asked for.

use super::character::blank;
use super::quoted;
use crate::files::grouped;
use seg2::Refusal;

/// Which traces there are.
pub fn no_such_trace(asked: usize, count: usize) -> String {
    match count {
        1 => format!("trace {asked} was asked for, and the file has one trace, 0"),
        _ => format!(
            "trace {asked} was asked for, and the file has {count} traces, 0 to {}",
            count.saturating_sub(1)
        ),
    }
}

/// As what a keyword's value was asked for.
#[derive(Clone, Copy, PartialEq)]
pub enum Asked {
    Number,
    Location,
}

/// Why a keyword's value is none. `None` is a keyword that is missing.
pub fn value_found(
    refusal: &Refusal,
    keyword: &[u8],
    value: Option<&[u8]>,
    asked: Asked,
) -> String {
    let keyword = quoted(keyword);
    let Some(value) = value else {
        return format!("the keyword {keyword} is not there");
    };
    if value.is_empty() {
        return format!("the value of {keyword} is empty");
    }
    let said = quoted(value);
    if refusal.number == 23 {
        let count = value.split(|&c| blank(c)).filter(|v| !v.is_empty()).count();
        return format!("{keyword} has {count} values: {said}");
    }
    let number = match asked {
        Asked::Number => value,
        Asked::Location => one_value(value, refusal.place),
    };
    let why = match refusal.number {
        20 => no_number(number),
        21 => digits(number),
        _ => no_double(number),
    };
    let number = quoted(number);
    match said == number {
        true => format!("the value of {keyword} is {said}: {why}"),
        false => format!("the value of {keyword} is {said}, and {number} there: {why}"),
    }
}

/// The value of a location that starts at a place.
fn one_value(value: &[u8], place: usize) -> &[u8] {
    let rest = &value[place.min(value.len())..];
    let end = rest.iter().position(|&c| blank(c));
    &rest[..end.unwrap_or(rest.len())]
}

fn no_number(text: &[u8]) -> String {
    let has = |c: u8| text.contains(&c);
    let why = match text {
        _ if has(b',') => "a comma stands where only a point may",
        _ if has(b'+') => "a plus is not allowed",
        _ if has(b'e') => "a small e stands where only E may",
        _ if text.iter().any(|&c| blank(c)) => "spaces and tabs are not allowed",
        [.., b'.'] => "digits are missing behind the point",
        [b'.', ..] | [b'-', b'.', ..] => "digits are missing before the point",
        [.., b'E'] | [.., b'E', b'-'] => "digits are missing behind E",
        _ => "it is none",
    };
    why.into()
}

/// The digits before E and behind it.
fn parts(text: &[u8]) -> (Vec<u8>, &[u8]) {
    let end = text.iter().position(|&c| c == b'E').unwrap_or(text.len());
    let (before, behind) = text.split_at(end);
    let digits = before.iter().copied().filter(u8::is_ascii_digit);
    (digits.collect(), behind.strip_prefix(b"E").unwrap_or(b""))
}

fn digits(text: &[u8]) -> String {
    let (before, behind) = parts(text);
    let behind = behind.iter().filter(|c| c.is_ascii_digit()).count();
    let before = before.len();
    if before > 18 {
        return format!("{before} digits, and 18 are allowed before E");
    }
    format!("{behind} digits behind E, and 2 are allowed")
}

/// A number is long, large or small by its coefficient and its power of ten.
fn no_double(text: &[u8]) -> String {
    let (digits, behind) = parts(text);
    let number = |digits: &[u8]| std::str::from_utf8(digits).ok()?.parse::<i64>().ok();
    let coefficient = number(&digits).unwrap_or(0);
    let point = text.iter().position(|&c| c == b'.');
    let end = text.iter().position(|&c| c == b'E').unwrap_or(text.len());
    let decimals = point.map_or(0, |point| end - point - 1) as i64;
    let power = number(behind).unwrap_or(0) - decimals;
    const LARGEST: i64 = 9_007_199_254_740_991;
    if coefficient > LARGEST {
        return format!(
            "too long, its digits are over {}",
            grouped(LARGEST as usize)
        );
    }
    match power {
        16.. => format!("too large, its power of ten is {power} and at most 15"),
        _ => format!("too small, its power of ten is {power} and at least -15"),
    }
}

#[cfg(test)]
mod tests {
    use super::*;
    use seg2::{Builder, File, Order};

    /// What is said of a value as a double, or as a location.
    fn said(value: &str, asked: Asked) -> String {
        let mut shot =
            Builder::start(Order::Low, 1, format!("A\t{value}\n").as_bytes()).expect("a start");
        shot.add_integers(b"", 1, &[]).expect("a trace");
        let file = File::open(shot.bytes()).expect("a file");
        let refusal = match asked {
            Asked::Location => file.location(b"A").expect_err("no location"),
            Asked::Number => file.double(b"A").expect_err("no double"),
        };
        let words = value_found(&refusal, b"A", file.value(b"A"), asked);
        format!("{}: {words}", refusal.number)
    }

    #[test]
    fn what_is_no_number_says_why() {
        for (value, words) in [
            ("0,5", "20: the value of `A` is `0,5`: a comma stands where only a point may"),
            ("+1", "20: the value of `A` is `+1`: a plus is not allowed"),
            ("1e5", "20: the value of `A` is `1e5`: a small e stands where only E may"),
            ("1 2", "20: the value of `A` is `1 2`: spaces and tabs are not allowed"),
            ("12.", "20: the value of `A` is `12.`: digits are missing behind the point"),
            ("-.5", "20: the value of `A` is `-.5`: digits are missing before the point"),
            ("5E-", "20: the value of `A` is `5E-`: digits are missing behind E"),
            ("FAR", "20: the value of `A` is `FAR`: it is none"),
            ("", "20: the value of `A` is empty"),
            ("1234567890123456789", "21: the value of `A` is `1234567890123456789`: 19 digits, and 18 are allowed before E"),
            ("1E-100", "21: the value of `A` is `1E-100`: 3 digits behind E, and 2 are allowed"),
            ("9007199254740992", "22: the value of `A` is `9007199254740992`: too long, its digits are over 9,007,199,254,740,991"),
            ("1.345E24", "22: the value of `A` is `1.345E24`: too large, its power of ten is 21 and at most 15"),
            ("1E16", "22: the value of `A` is `1E16`: too large, its power of ten is 16 and at most 15"),
            ("-1E-16", "22: the value of `A` is `-1E-16`: too small, its power of ten is -16 and at least -15"),
            ("0.1E-15", "22: the value of `A` is `0.1E-15`: too small, its power of ten is -16 and at least -15"),
        ] {
            assert_eq!(said(value, Asked::Number), words);
        }
    }

    #[test]
    fn what_is_no_location_says_why() {
        for (value, words) in [
            ("1 2", "23: `A` has 2 values: `1 2`"),
            ("1 2 3 4", "23: `A` has 4 values: `1 2 3 4`"),
            ("", "23: the value of `A` is empty"),
            ("x 2 3", "20: the value of `A` is `x 2 3`, and `x` there: it is none"),
            ("1 2 0,5", "20: the value of `A` is `1 2 0,5`, and `0,5` there: a comma stands where only a point may"),
            ("1 1E-16 2", "22: the value of `A` is `1 1E-16 2`, and `1E-16` there: too small, its power of ten is -16 and at least -15"),
        ] {
            assert_eq!(said(value, Asked::Location), words);
        }
        let missing = Refusal {
            number: 23,
            part: -1,
            place: 0,
        };
        assert_eq!(
            value_found(&missing, b"B", None, Asked::Location),
            "the keyword `B` is not there"
        );
    }

    #[test]
    fn traces_are_counted_from_0() {
        assert_eq!(
            no_such_trace(1, 1),
            "trace 1 was asked for, and the file has one trace, 0"
        );
        assert_eq!(
            no_such_trace(9, 3),
            "trace 9 was asked for, and the file has 3 traces, 0 to 2"
        );
    }
}
