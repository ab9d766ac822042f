//! Cases as text, so that one can be saved, read and run again.
//!
//! Each line is a name, a space and a value; bytes are hexadecimal, rows are decimal.

use crate::call::Forged;
use crate::case::{Base, Case, Given, Kind, Start};
use seg2_reference::Row;
use std::fmt::{Display, Write};
use std::iter::Peekable;
use std::str::{FromStr, Lines};

/// The case as text.
pub fn written(case: &Case) -> String {
    let mut text = format!("seed {}\n", case.seed);
    match &case.kind {
        Kind::Asked { buffer, length } => {
            line(&mut text, "kind", "asked");
            line(&mut text, "length", length);
            line(&mut text, "buffer", hex(buffer));
        }
        Kind::Started { buffer, given } => {
            line(&mut text, "kind", "started");
            line(&mut text, "buffer", hex(buffer));
            write_start(&mut text, given);
        }
        Kind::Added {
            buffer,
            length,
            given,
        } => {
            line(&mut text, "kind", "added");
            line(&mut text, "length", length);
            line(&mut text, "buffer", hex(buffer));
            write_given(&mut text, given);
        }
        Kind::Grown { base, room, steps } => {
            line(&mut text, "kind", "grown");
            line(&mut text, "room", room);
            match base {
                Base::Start(given) => write_start(&mut text, given),
                Base::Image { image } => line(&mut text, "image", hex(image)),
            }
            for step in steps {
                write_given(&mut text, step);
            }
        }
        Kind::Typed { text: typed } => {
            line(&mut text, "kind", "typed");
            line(&mut text, "text", hex(typed));
        }
        Kind::Forged { number } => {
            line(&mut text, "kind", "forged");
            line(&mut text, "minus", number.minus);
            line(&mut text, "coefficient", number.coefficient);
            line(&mut text, "power", number.power);
            line(&mut text, "decimals", number.decimals);
        }
    }
    text
}

fn line(text: &mut String, name: &str, value: impl Display) {
    let _ = writeln!(text, "{name} {value}");
}

fn hex(bytes: &[u8]) -> String {
    bytes.iter().fold(String::new(), |mut text, byte| {
        let _ = write!(text, "{byte:02x}");
        text
    })
}

fn write_start(text: &mut String, given: &Start) {
    line(text, "order", given.order);
    line(text, "slots", given.slots);
    line(text, "sheet", hex(&given.sheet));
}

fn write_given(text: &mut String, given: &Given) {
    line(text, "code", given.code);
    line(text, "sheet", hex(&given.sheet));
    match &given.row {
        Row::Integers(row) => line(text, "integers", decimal(row)),
        Row::Bits(row) => line(text, "bits", decimal(row)),
    }
}

fn decimal<T: ToString>(row: &[T]) -> String {
    let words: Vec<String> = row.iter().map(T::to_string).collect();
    words.join(" ")
}

/// The case that a text is, or what is wrong with the text.
pub fn read(text: &str) -> Result<Case, String> {
    let mut fields = Fields {
        lines: text.lines().peekable(),
    };
    let seed = fields.number("seed")?;
    let kind = match fields.value("kind")? {
        "asked" => Kind::Asked {
            length: fields.number("length")?,
            buffer: fields.bytes("buffer")?,
        },
        "started" => Kind::Started {
            buffer: fields.bytes("buffer")?,
            given: fields.start()?,
        },
        "added" => Kind::Added {
            length: fields.number("length")?,
            buffer: fields.bytes("buffer")?,
            given: fields.given()?,
        },
        "grown" => Kind::Grown {
            room: fields.number("room")?,
            base: fields.base()?,
            steps: fields.steps()?,
        },
        "typed" => Kind::Typed {
            text: fields.bytes("text")?,
        },
        "forged" => Kind::Forged {
            number: fields.forged()?,
        },
        other => return Err(format!("no kind of case: {other}")),
    };
    match fields.lines.next() {
        None => Ok(Case { seed, kind }),
        Some(more) => Err(format!("behind the case: {more}")),
    }
}

struct Fields<'a> {
    lines: Peekable<Lines<'a>>,
}

impl<'a> Fields<'a> {
    fn next_is(&mut self, name: &str) -> bool {
        let next = self.lines.peek();
        next.is_some_and(|line| line.split(' ').next() == Some(name))
    }

    fn value(&mut self, name: &str) -> Result<&'a str, String> {
        let line = self.lines.next().ok_or(format!("{name} is missing"))?;
        match line.split_once(' ') {
            Some((found, value)) if found == name => Ok(value),
            // Nothing behind the name, and the space gone with it.
            None if line == name => Ok(""),
            _ => Err(format!("{name} expected: {line}")),
        }
    }

    fn number<T: FromStr>(&mut self, name: &str) -> Result<T, String> {
        number(self.value(name)?)
    }

    fn bytes(&mut self, name: &str) -> Result<Vec<u8>, String> {
        let digits = self.value(name)?.as_bytes();
        if digits.len() % 2 != 0 || !digits.iter().all(u8::is_ascii_hexdigit) {
            return Err(format!("{name} is not hexadecimal"));
        }
        let digit = |d: u8| char::from(d).to_digit(16).unwrap_or(0) as u8;
        let byte = |pair: &[u8]| digit(pair[0]) * 16 + digit(pair[1]);
        Ok(digits.chunks_exact(2).map(byte).collect())
    }

    fn row<T: FromStr>(&mut self, name: &str) -> Result<Vec<T>, String> {
        self.value(name)?.split_whitespace().map(number).collect()
    }

    fn start(&mut self) -> Result<Start, String> {
        Ok(Start {
            order: self.number("order")?,
            slots: self.number("slots")?,
            sheet: self.bytes("sheet")?,
        })
    }

    fn given(&mut self) -> Result<Given, String> {
        Ok(Given {
            code: self.number("code")?,
            sheet: self.bytes("sheet")?,
            row: match self.next_is("bits") {
                true => Row::Bits(self.row("bits")?),
                false => Row::Integers(self.row("integers")?),
            },
        })
    }

    fn forged(&mut self) -> Result<Forged, String> {
        Ok(Forged {
            minus: self.number("minus")?,
            coefficient: self.number("coefficient")?,
            power: self.number("power")?,
            decimals: self.number("decimals")?,
        })
    }

    fn base(&mut self) -> Result<Base, String> {
        if self.next_is("image") {
            let image = self.bytes("image")?;
            return Ok(Base::Image { image });
        }
        Ok(Base::Start(self.start()?))
    }

    fn steps(&mut self) -> Result<Vec<Given>, String> {
        let mut steps = Vec::new();
        while self.next_is("code") {
            steps.push(self.given()?);
        }
        Ok(steps)
    }
}

fn number<T: FromStr>(word: &str) -> Result<T, String> {
    word.parse().map_err(|_| format!("no number: {word}"))
}
