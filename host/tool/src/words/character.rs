//! Characters that are not allowed.

use super::hex;

/// Codes 33 to 126 without the small letters.
pub fn in_keyword(byte: u8) -> bool {
    matches!(byte, 33..=126) && !byte.is_ascii_lowercase()
}

/// The small letters too, as the lenient reading takes a keyword.
pub fn in_lenient_keyword(byte: u8) -> bool {
    matches!(byte, 33..=126)
}

/// Codes 32 to 126; whoever allows a tab says so.
pub fn in_value(byte: u8) -> bool {
    matches!(byte, 32..=126)
}

pub fn blank(byte: u8) -> bool {
    matches!(byte, b' ' | b'\t')
}

/// The first character of some bytes: itself, its code, and what is wrong with it.
pub fn told(bytes: &[u8]) -> String {
    let Some(&byte) = bytes.first() else {
        return "nothing".into();
    };
    let code = hex(&[byte]);
    match byte {
        b'\t' => format!("a tab ({code})"),
        b' ' => format!("a space ({code})"),
        b'a'..=b'z' => format!("`{}` ({code}), a small letter", char::from(byte)),
        33..=126 => format!("`{}` ({code})", char::from(byte)),
        128.. => outside_ascii(bytes),
        _ => format!("{code}, a control character"),
    }
}

/// A letter of UTF-8 is shown as itself.
fn outside_ascii(bytes: &[u8]) -> String {
    let whole = (2..=4).find_map(|size| std::str::from_utf8(bytes.get(..size)?).ok());
    match whole.filter(|text| text.chars().all(char::is_alphanumeric)) {
        Some(text) => format!("`{text}` ({}), no ASCII character", hex(text.as_bytes())),
        None => format!("{}, no ASCII character", hex(&bytes[..1])),
    }
}

#[cfg(test)]
mod tests {
    use super::*;

    #[test]
    fn a_character_is_told_with_its_code() {
        for (bytes, said) in [
            (&b"stack"[..], "`s` (73h), a small letter"),
            (b"S", "`S` (53h)"),
            (b"\tA", "a tab (09h)"),
            (b" A", "a space (20h)"),
            (b"\x07", "07h, a control character"),
            (b"\x7F", "7Fh, a control character"),
            ("é".as_bytes(), "`é` (C3h A9h), no ASCII character"),
            ("Ж2".as_bytes(), "`Ж` (D0h 96h), no ASCII character"),
            (b"\xE9t", "E9h, no ASCII character"),
            // a control character of UTF-8 is not shown to a terminal
            (b"\xC2\x9B2J", "C2h, no ASCII character"),
            (b"", "nothing"),
        ] {
            assert_eq!(told(bytes), said);
        }
    }
}
