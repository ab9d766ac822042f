//! Numbers and locations with their answers: rows 20 to 23.

use super::expected::refused;
use super::rng::Rng;
use crate::number::{Location, Number};
use crate::refusal::Refusal;

/// A text and what it is as a number and as a double.
#[derive(Clone, Debug)]
pub struct NumberCase {
    pub text: Vec<u8>,
    pub number: Result<Number, Refusal>,
    pub double: Result<f64, Refusal>,
    /// Its number's text as it is written back; nothing where it is no number.
    pub written: Option<Vec<u8>>,
}

impl NumberCase {
    /// The row that refuses it as a double; 0 where none does.
    pub fn row(&self) -> u8 {
        self.double.map_or_else(|refusal| refusal.number, |_| 0)
    }
}

pub fn number_case(rng: &mut Rng) -> NumberCase {
    if rng.one_in(4) {
        return NumberCase {
            text: no_number(rng),
            number: refused(20, 0),
            double: refused(20, 0),
            written: None,
        };
    }
    let whole_digits = rng.pick(&[1, 1, 2, 3, 5, 9, 15, 16, 18, 19, 25]);
    let fraction_digits = rng.pick(&[0, 0, 0, 1, 2, 3, 6, 17]);
    let exponent_digits = rng.pick(&[0, 0, 0, 1, 1, 2, 2, 3]);
    let decimal = Decimal {
        minus: rng.one_in(2),
        whole: random_digits(rng, whole_digits),
        fraction: random_digits(rng, fraction_digits),
        exponent_minus: rng.one_in(2),
        exponent: random_digits(rng, exponent_digits),
    };
    let text = decimal.text();
    let number = decimal.number();
    NumberCase {
        double: number.and_then(|number| nearest_double(&text, number)),
        written: number.ok().map(|_| decimal.written().into_bytes()),
        number,
        text: text.into_bytes(),
    }
}

/// The pieces of a number to write.
struct Decimal {
    minus: bool,
    whole: String,
    fraction: String,
    exponent_minus: bool,
    exponent: String,
}

impl Decimal {
    fn text(&self) -> String {
        let mut text = String::from(if self.minus { "-" } else { "" });
        text.push_str(&self.whole);
        if !self.fraction.is_empty() {
            text.push('.');
            text.push_str(&self.fraction);
        }
        if !self.exponent.is_empty() {
            text.push_str(if self.exponent_minus { "E-" } else { "E" });
            text.push_str(&self.exponent);
        }
        text
    }

    fn number(&self) -> Result<Number, Refusal> {
        if self.whole.len() + self.fraction.len() > 18 || self.exponent.len() > 2 {
            return refused(21, 0);
        }
        let digits = format!("{}{}", self.whole, self.fraction);
        let coefficient = digits.parse().unwrap_or(0);
        let exponent: i32 = self.exponent.parse().unwrap_or(0);
        let sign = if self.exponent_minus { -1 } else { 1 };
        Ok(Number {
            minus: self.minus && coefficient > 0,
            coefficient,
            power: sign * exponent - self.fraction.len() as i32,
            decimals: self.fraction.len() as u32,
        })
    }

    /// The same number in the form that is written: the text without what a surveyor may
    /// type beside its digits. No minus before zero, no zeros in front but one before the
    /// point, none in front of E's digits, and no E with 0.
    fn written(&self) -> String {
        let without_zeros = |digits: &str| digits.trim_start_matches('0').to_string();
        let whole = without_zeros(&self.whole);
        let is_zero = whole.is_empty() && without_zeros(&self.fraction).is_empty();
        Decimal {
            minus: self.minus && !is_zero,
            whole: if whole.is_empty() { "0".into() } else { whole },
            fraction: self.fraction.clone(),
            exponent_minus: self.exponent_minus,
            exponent: without_zeros(&self.exponent),
        }
        .text()
    }
}

/// One rounded operation on two exact doubles gives the double nearest to the
/// decimal, which is what the standard library's own conversion gives.
fn nearest_double(text: &str, number: Number) -> Result<f64, Refusal> {
    let inside = number.coefficient < 1 << 53 && number.power.abs() <= 15;
    if !inside {
        return refused(22, 0);
    }
    let value: f64 = text.parse().unwrap_or(f64::NAN);
    Ok(if value == 0.0 { 0.0 } else { value })
}

/// Digits with many zeros, also leading ones.
fn random_digits(rng: &mut Rng, count: usize) -> String {
    let zeros = rng.one_in(4);
    (0..count)
        .map(|i| match (zeros, rng.between(0, 9)) {
            (true, digit) if i + 2 < count || digit < 5 => '0',
            (_, digit) => char::from(b'0' + digit as u8),
        })
        .collect()
}

/// Texts that break the grammar; 20 comes before 21, so length does not matter.
fn no_number(rng: &mut Rng) -> Vec<u8> {
    let fixed: &[&[u8]] = &[
        b"",
        b"-",
        b".",
        b"E",
        b"E5",
        b".5",
        b"-.5",
        b"12.",
        b"-12.",
        b"1.E5",
        b"1E",
        b"1E-",
        b"1E+5",
        b"1e5",
        b"1.2.3",
        b"1E2E3",
        b"1E2.5",
        b"1E--2",
        b"0,020",
        b"1,000",
        b"+1",
        b"--1",
        b"- 1",
        b"1-",
        b"0x10",
        b"1_000",
        b"NaN",
        b"inf",
        b"1\0",
        b"1\n",
        b"\xB2",
        b"1\xFF",
        b"1234567890123456789012.",
        b"1234567890123456789012,5",
    ];
    let digits = random_digits(rng, 3).into_bytes();
    match rng.between(0, 3) {
        0 => [b" ", &digits[..]].concat(),
        1 => [&digits[..], b"\t"].concat(),
        _ => rng.pick(fixed).to_vec(),
    }
}

/// A location's text and its answer.
#[derive(Clone, Debug)]
pub struct LocationCase {
    pub text: Vec<u8>,
    pub expected: Result<Location, Refusal>,
}

impl LocationCase {
    /// How many values it has, or the row that refuses it.
    pub fn kind(&self) -> Result<u8, u8> {
        let count = self.expected.map(|location| location.count);
        count.map_err(|refusal| refusal.number)
    }
}

pub fn location_case(rng: &mut Rng) -> LocationCase {
    let count = rng.pick(&[0, 1, 1, 1, 2, 3, 3, 3, 3, 3, 4, 7]);
    let mut text = random_blanks(rng, 0);
    let mut values = Vec::new();
    for i in 0..count {
        if i > 0 {
            text.extend(random_blanks(rng, 1));
        }
        let value = one_word(rng);
        let decimals = value.number.map_or(0, |number| number.decimals);
        let double = value.double.map(|double| (double, decimals));
        values.push(double.map_err(|r| Refusal::file(r.number, text.len())));
        text.extend(value.text);
    }
    text.extend(random_blanks(rng, 0));
    LocationCase {
        text,
        expected: if count == 1 || count == 3 {
            location_of(&values)
        } else {
            refused(23, 0)
        },
    }
}

/// The values with their decimals, or the first refusal among them.
fn location_of(values: &[Result<(f64, u32), Refusal>]) -> Result<Location, Refusal> {
    let values: Vec<(f64, u32)> = values.iter().copied().collect::<Result<_, _>>()?;
    let at = |i: usize| values.get(i).copied().unwrap_or((0.0, 0));
    let [x, y, z] = [0, 1, 2].map(at);
    Ok(Location {
        x: x.0,
        y: y.0,
        z: z.0,
        count: values.len() as u8,
        decimals: [x.1, y.1, z.1],
    })
}

/// A number case that is one word in a location, most often a double.
fn one_word(rng: &mut Rng) -> NumberCase {
    loop {
        let case = number_case(rng);
        let is_word = !case.text.is_empty() && !case.text.iter().any(|c| b" \t".contains(c));
        if is_word && (case.double.is_ok() || rng.one_in(6)) {
            return case;
        }
    }
}

fn random_blanks(rng: &mut Rng, least: usize) -> Vec<u8> {
    let count = rng.pick(&[least, least, 1, 3]);
    (0..count).map(|_| rng.pick(b" \t")).collect()
}
