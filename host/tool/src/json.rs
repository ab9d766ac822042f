//! JSON, as much as the tool prints: objects, rows, texts and whole numbers.

use crate::words::{Forgiven, Leniently, Told};
use std::ffi::OsStr;
use std::fmt::Write as _;
use std::os::unix::ffi::OsStrExt;

/// An object that is being written.
pub struct Object(String);

impl Object {
    /// One that begins with the name of a file.
    pub fn of(name: &OsStr) -> Object {
        let object = Object(String::new());
        match name.to_str() {
            Some(told) => object.text("name", told),
            None => object
                .bytes("name", name.as_bytes())
                .text("name_bytes", &hex(name.as_bytes())),
        }
    }

    pub fn new() -> Object {
        Object(String::new())
    }

    /// A field whose value is JSON already.
    pub fn field(mut self, key: &str, value: impl std::fmt::Display) -> Object {
        let comma = if self.0.is_empty() { "" } else { "," };
        let _ = write!(self.0, "{comma}\"{key}\":{value}");
        self
    }

    pub fn text(self, key: &str, value: &str) -> Object {
        self.field(key, text(value.chars()))
    }

    /// Bytes: one outside ASCII is told as the character of its number.
    pub fn bytes(self, key: &str, value: &[u8]) -> Object {
        self.field(key, bytes(value))
    }

    pub fn row(self, key: &str, items: &[String]) -> Object {
        self.field(key, format_args!("[{}]", items.join(",")))
    }

    pub fn end(self) -> String {
        format!("{{{}}}", self.0)
    }
}

/// A file that is refused, as every command tells it.
pub fn refused(name: &OsStr, told: &Told) -> String {
    refusal(Object::of(name).field("accepted", false), told).end()
}

/// The same with --lenient: the strict refusal too, where it is another.
pub fn refused_leniently(name: &OsStr, told: &Told) -> String {
    let object = Object::of(name).field("accepted", false);
    let object = refusal(object.field("lenient", false), told);
    match &told.strict {
        Some(strict) => object.field("strict", refusal(Object::new(), strict).end()),
        None => object,
    }
    .end()
}

/// With --lenient: a file that is accepted, and whether leniently alone. Then the strict
/// refusal follows.
pub fn accepted_leniently(name: &OsStr, leniently: Option<&Leniently>) -> Object {
    let object = Object::of(name).field("accepted", true);
    let object = object.field("lenient", leniently.is_some());
    match leniently {
        Some(Leniently { strict, .. }) => {
            object.field("strict", refusal(Object::new(), strict).end())
        }
        None => object,
    }
}

/// How often the strict rules are broken in such a file.
pub fn forgiven(all: &Forgiven) -> String {
    Object::new()
        .field("lower_case", all.letters)
        .field("order", all.order)
        .field("end_marks", all.marks)
        .field("channel_numbers", all.channels)
        .end()
}

/// The fields of a refusal.
fn refusal(object: Object, told: &Told) -> Object {
    let refusal = told.refusal;
    let object = object
        .field("number", refusal.number)
        .field("part", refusal.part)
        .field("place", refusal.place);
    let object = object.text("text", refusal.text());
    object.text("found", &told.found).text("to_do", &told.to_do)
}

/// A file that cannot be read.
pub fn unread(name: &OsStr, sentence: &str) -> String {
    let object = Object::of(name).field("accepted", false);
    object.text("error", sentence).end()
}

pub fn bytes(bytes: &[u8]) -> String {
    text(bytes.iter().map(|&byte| char::from(byte)))
}

/// A text in quotes. Only ASCII is printed, so the output has no encoding to be told.
fn text(characters: impl Iterator<Item = char>) -> String {
    let mut out = String::from('"');
    for c in characters {
        match c {
            '"' | '\\' => out.extend(['\\', c]),
            ' '..='~' => out.push(c),
            _ => {
                for unit in c.encode_utf16(&mut [0; 2]) {
                    let _ = write!(out, "\\u{unit:04x}");
                }
            }
        }
    }
    out.push('"');
    out
}

fn hex(bytes: &[u8]) -> String {
    bytes.iter().map(|byte| format!("{byte:02x}")).collect()
}

#[cfg(test)]
mod tests {
    use super::*;

    #[test]
    fn texts_are_escaped() {
        let escaped = |said: &str| text(said.chars());
        assert_eq!(escaped("A \"b\" \\ ~"), r#""A \"b\" \\ ~""#);
        assert_eq!(escaped("\t\n\0\u{7f}"), r#""\u0009\u000a\u0000\u007f""#);
        assert_eq!(escaped("é€😀"), r#""\u00e9\u20ac\ud83d\ude00""#);
        assert_eq!(bytes(b"\xE9\x80A\xFF"), r#""\u00e9\u0080A\u00ff""#);
        assert_eq!(bytes(b""), r#""""#);
    }

    #[test]
    fn an_object_has_its_fields_in_order() {
        let object = Object::of(OsStr::new("shot")).field("accepted", true);
        let rows = object.row("traces", &["1".into(), "2".into()]);
        let said = r#"{"name":"shot","accepted":true,"traces":[1,2]}"#;
        assert_eq!(rows.end(), said);
        assert_eq!(Object::new().row("strings", &[]).end(), r#"{"strings":[]}"#);
        let name = OsStr::from_bytes(b"\xE9t\xE9");
        let said = r#"{"name":"\u00e9t\u00e9","name_bytes":"e974e9"}"#;
        assert_eq!(Object::of(name).end(), said);
    }
}
