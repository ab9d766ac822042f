//! Rows 34 and 35: channel numbers in all traces or none.

use super::character::told;
use super::quoted;

const KEYWORD: &[u8] = b"CHANNEL_NUMBER";

/// Whether row 34 refuses a trace with this value beside trace 0's.
pub fn is_refused(own: Option<&[u8]>, first: Option<&[u8]>) -> bool {
    own.is_some() != first.is_some() || own.and_then(fault).is_some()
}

/// What is found of row 34: the trace's value beside trace 0's.
pub fn trace_found(own: Option<&[u8]>, first: Option<&[u8]>) -> String {
    let Some(value) = own else {
        let first = quoted(first.unwrap_or_default());
        return format!("it has no CHANNEL_NUMBER, and trace 0 has {first}");
    };
    let said = format!("its CHANNEL_NUMBER is {}", quoted(value));
    match fault(value) {
        Some(why) => format!("{said}: {why}"),
        None => format!("{said}, and trace 0 has none"),
    }
}

/// What is found of row 35: the sheet's line beside the value of the file's trace 0.
pub fn sheet_found(sheet: &[u8], first: Option<&[u8]>) -> String {
    let mut lines = sheet.split(|&c| c == b'\n').enumerate();
    let found = lines.find_map(|(i, line)| Some((i + 1, line, value_of(line)?)));
    let Some((number, line, value)) = found else {
        let first = quoted(first.unwrap_or_default());
        return format!("no CHANNEL_NUMBER in the sheet, and trace 0 of the file has {first}");
    };
    let none = || "the file's traces have no CHANNEL_NUMBER".into();
    let why = fault(value).unwrap_or_else(none);
    format!("line {number}, {}: {why}", quoted(line))
}

fn value_of(line: &[u8]) -> Option<&[u8]> {
    line.strip_prefix(KEYWORD)?.strip_prefix(b"\t")
}

/// Why a value is no channel number, where it is none.
fn fault(value: &[u8]) -> Option<String> {
    if value.is_empty() {
        return Some("it is empty".into());
    }
    if let Some(bad) = value.iter().position(|c| !c.is_ascii_digit()) {
        let said = told(&value[bad..]);
        let place = bad + 1;
        return Some(format!(
            "character {place} is {said}, and digits alone are allowed"
        ));
    }
    if value.len() > 18 {
        let count = value.len();
        return Some(format!("{count} digits, and 18 are allowed"));
    }
    let push = |number: u64, digit: &u8| 10 * number + u64::from(digit - b'0');
    match value.iter().fold(0, push) {
        0 => Some("0, and 1 is the least".into()),
        1..=32_767 => None,
        _ => Some("over 32,767".into()),
    }
}

#[cfg(test)]
mod tests {
    use super::*;
    use seg2_reference::generate::{bad_channel, good_channel, Rng};
    use seg2_reference::worked::{CHANNEL_NUMBERS, NO_CHANNEL_NUMBERS};

    #[test]
    fn what_is_no_channel_number_says_why() {
        for (value, why) in [
            ("", "it is empty"),
            ("0", "0, and 1 is the least"),
            ("0000", "0, and 1 is the least"),
            ("32768", "over 32,767"),
            ("999999999999999999", "over 32,767"),
            ("0000000000000000001", "19 digits, and 18 are allowed"),
            (
                "-1",
                "character 1 is `-` (2Dh), and digits alone are allowed",
            ),
            (
                "1.0",
                "character 2 is `.` (2Eh), and digits alone are allowed",
            ),
            (
                "1E0",
                "character 2 is `E` (45h), and digits alone are allowed",
            ),
            (
                "12a",
                "character 3 is `a` (61h), a small letter, and digits alone are allowed",
            ),
            (
                "1 ",
                "character 2 is a space (20h), and digits alone are allowed",
            ),
        ] {
            assert_eq!(fault(value.as_bytes()).as_deref(), Some(why), "{value}");
        }
    }

    /// A reason where the value is bad, and none where it is good.
    #[test]
    fn a_reason_is_told_exactly_where_there_is_one() {
        for value in CHANNEL_NUMBERS {
            assert_eq!(fault(value.as_bytes()), None, "{value}");
        }
        for value in NO_CHANNEL_NUMBERS {
            assert!(fault(value.as_bytes()).is_some(), "{value}");
        }
        let mut rng = Rng::new(405);
        for _ in 0..3000 {
            assert_eq!(fault(&good_channel(&mut rng)), None);
            assert!(fault(&bad_channel(&mut rng)).is_some());
        }
    }

    #[test]
    fn a_trace_is_told_beside_trace_0() {
        let (one, bad) = (Some(&b"1"[..]), Some(&b"0"[..]));
        for (own, first, words) in [
            (bad, bad, "its CHANNEL_NUMBER is `0`: 0, and 1 is the least"),
            (
                bad,
                None,
                "its CHANNEL_NUMBER is `0`: 0, and 1 is the least",
            ),
            (None, one, "it has no CHANNEL_NUMBER, and trace 0 has `1`"),
            (one, None, "its CHANNEL_NUMBER is `1`, and trace 0 has none"),
        ] {
            assert_eq!(trace_found(own, first), words);
        }
    }

    #[test]
    fn a_sheet_is_told_by_its_line() {
        let one = Some(&b"1"[..]);
        for (sheet, first, words) in [
            (
                &b"A\t1\nCHANNEL_NUMBER\t1.0\n"[..],
                one,
                "line 2, `CHANNEL_NUMBER\\t1.0`: character 2 is `.` (2Eh), and digits alone are allowed",
            ),
            (
                b"CHANNEL_NUMBER\t\n",
                None,
                "line 1, `CHANNEL_NUMBER\\t`: it is empty",
            ),
            (
                b"CHANNEL_NUMBER\t7\n",
                None,
                "line 1, `CHANNEL_NUMBER\\t7`: the file's traces have no CHANNEL_NUMBER",
            ),
            (
                b"CHANNEL_NUMBERS\t7\n",
                one,
                "no CHANNEL_NUMBER in the sheet, and trace 0 of the file has `1`",
            ),
        ] {
            assert_eq!(sheet_found(sheet, first), words);
        }
    }
}
