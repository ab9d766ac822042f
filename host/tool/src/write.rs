//! Writing files: new, add.

use crate::files::{self, confirm, grouped, told_name};
use crate::held::{create, Held};
use crate::options::{whole, Options};
use crate::stop::{unusable, Answer, Stop};
use crate::words::{line_found, sheet_found, Told};
use seg2::{code, Builder, File, Order, Refusal};
use std::ffi::OsStr;
use std::str::FromStr;
use std::time::Duration;

/// How long an addition waits for another, without --wait.
const WAIT_SECONDS: u64 = 60;

/// Starts a file; one that is there already stays.
pub fn new(given: &Options) -> Answer {
    let [name] = given.exactly()?;
    files::no_input(name)?;
    let order = order(given.needed("--order")?)?;
    let slots = given.needed("--slots")?;
    let slots: u32 = whole(slots, "number of pointer slots: 1 to 16,383")?;
    let sheet = Sheet::of(given.value("--sheet"))?;
    let image = Builder::start(order, slots, &sheet.bytes).map_err(|refusal| {
        sheet
            .told(&refusal)
            .unwrap_or_else(|| Told::new(name, &refusal, format!("{slots} slots")).stop())
    })?;
    create(name, image.bytes())?;
    confirm(&format!(
        "{}: started with {} pointer slots, {} bytes; it is a file once a trace is added\n",
        told_name(name),
        grouped(slots as usize),
        grouped(image.bytes().len())
    ))
}

fn order(word: &OsStr) -> Answer<Order> {
    match word.to_str() {
        Some("low") => Ok(Order::Low),
        Some("high") => Ok(Order::High),
        _ => {
            let word = word.to_string_lossy();
            Err(unusable(format!("`{word}` is no byte order: low or high")))
        }
    }
}

/// Adds a trace to a file, which stays as it was where that cannot be done.
pub fn add(given: &Options) -> Answer {
    let [name] = given.exactly()?;
    files::no_input(name)?;
    let wait = given
        .value("--wait")
        .map(|word| whole(word, "number of seconds"));
    let wait = Duration::from_secs(wait.unwrap_or(Ok(WAIT_SECONDS))?);
    let [sheet, code, samples] = ["--sheet", "--code", "--samples"].map(|name| given.needed(name));
    let (sheet, code, samples) = (sheet?, code_of(code?)?, samples?);
    let samples = Samples::of(Sheet::of(Some(sheet))?, code, samples)?;
    // only now, so that nobody waits for a sheet or samples that are still to come
    let held = Held::take(name, wait)?;
    let mut image = Builder::resume(held.bytes.clone());
    samples
        .add_to(&mut image)
        .map_err(|refusal| samples.told(name, &held.bytes, &refusal))?;
    held.replace(image.bytes())?;
    let traces = File::open(image.bytes()).map_or(0, |file| file.trace_count());
    confirm(&format!(
        "{}: trace {} added, now {} bytes\n",
        told_name(name),
        traces.saturating_sub(1),
        grouped(image.bytes().len())
    ))
}

fn code_of(word: &OsStr) -> Answer<u32> {
    let code: u32 = whole(word, "format code: 1 to 5")?;
    if !(code::FIXED_16..=code::FLOAT_64).contains(&code) {
        return Err(unusable(format!("`{code}` is no format code: 1 to 5")));
    }
    Ok(code)
}

/// A sheet and its name.
struct Sheet<'a> {
    name: &'a OsStr,
    bytes: Vec<u8>,
}

impl<'a> Sheet<'a> {
    /// Without a name there are no strings.
    fn of(name: Option<&'a OsStr>) -> Answer<Sheet<'a>> {
        Ok(Sheet {
            name: name.unwrap_or_default(),
            bytes: name.map_or(Ok(Vec::new()), files::sheet)?,
        })
    }

    /// A refusal that is the sheet's own.
    fn told(&self, refusal: &Refusal) -> Option<Stop> {
        let found = match refusal.number {
            25 | 26 => line_found(&self.bytes, refusal),
            27 => format!("the sheet has {} bytes", grouped(self.bytes.len())),
            _ => return None,
        };
        Some(Told::new(self.name, refusal, found).stop())
    }
}

/// What is added: a sheet, a code, and samples of its kind.
struct Samples<'a> {
    name: &'a OsStr,
    text: String,
    code: u32,
    row: Row,
    sheet: Sheet<'a>,
}

enum Row {
    Integers(Vec<i32>),
    Patterns(Vec<u64>),
}

impl<'a> Samples<'a> {
    fn of(sheet: Sheet<'a>, code: u32, name: &'a OsStr) -> Answer<Samples<'a>> {
        let text = files::text(name)?;
        let row = match code {
            code::FLOAT_32 => Row::Patterns(rows(&text, pattern_of_code_4)?),
            code::FLOAT_64 => Row::Patterns(rows(&text, pattern_of_code_5)?),
            _ => Row::Integers(rows(&text, integer)?),
        };
        Ok(Samples {
            name,
            text,
            code,
            row,
            sheet,
        })
    }

    fn add_to(&self, image: &mut Builder) -> Result<(), Refusal> {
        match &self.row {
            Row::Integers(row) => image.add_integers(&self.sheet.bytes, self.code, row),
            Row::Patterns(row) => image.add_bits(&self.sheet.bytes, self.code, row),
        }
    }

    /// A refusal of the shot file, of the sheet or of the samples.
    fn told(&self, shot: &OsStr, bytes: &[u8], refusal: &Refusal) -> Stop {
        if let Some(stop) = self.sheet.told(refusal) {
            return stop;
        }
        let code = self.code;
        match refusal.number {
            _ if refusal.is_of_check() => Told::of_file(shot, bytes, refusal).stop(),
            24 => Told::new(shot, refusal, slots_found(bytes)).stop(),
            28 => {
                let count = grouped(self.text.lines().count());
                let found = format!("{count} samples for code {code}");
                Told::new(self.name, refusal, found).stop()
            }
            35 => {
                let found = channel_found(&self.sheet.bytes, bytes);
                Told::new(self.sheet.name, refusal, found).stop()
            }
            29 => {
                let line = self.text.lines().nth(refusal.place).unwrap_or("").trim();
                let number = grouped(refusal.place + 1);
                let found = format!("line {number} is `{line}`, for code {code}");
                Told::new(self.name, refusal, found).stop()
            }
            _ => {
                let found = format!("the file has {} bytes already", grouped(bytes.len()));
                Told::new(shot, refusal, found).stop()
            }
        }
    }
}

/// The sheet's channel number beside that of the file's trace 0. A file without traces is
/// none yet, and has no such trace.
fn channel_found(sheet: &[u8], bytes: &[u8]) -> String {
    let first = File::open(bytes).and_then(|file| file.trace(0));
    let first = first.ok().and_then(|trace| trace.value(b"CHANNEL_NUMBER"));
    sheet_found(sheet, first)
}

/// How many traces a full file was started for.
fn slots_found(bytes: &[u8]) -> String {
    match File::open(bytes).map_or(0, |file| file.pointer_room() / 4) {
        1 => "the file was started for one trace and has it".into(),
        slots => format!(
            "the file was started for {} traces and has them all",
            grouped(slots)
        ),
    }
}

/// Samples, one a line; blanks around one do not count.
fn rows<T>(text: &str, sample: impl Fn(&str) -> Result<T, String>) -> Answer<Vec<T>> {
    let lines = text.lines().enumerate();
    let read = lines.map(|(i, line)| {
        let word = line.trim();
        sample(word)
            .map_err(|why| unusable(format!("line {} of the samples: `{word}` {why}", i + 1)))
    });
    read.collect()
}

fn integer(word: &str) -> Result<i32, String> {
    word.parse()
        .map_err(|_| "is no whole number of 32 bits".into())
}

/// A decimal number that is not beyond the largest, or one of the names that are.
fn float<T: FromStr + Copy + Into<f64>>(word: &str) -> Result<T, String> {
    let number: T = word
        .parse()
        .map_err(|_| "is no decimal number and no bit pattern")?;
    let named = word.contains(['i', 'I']);
    if Into::<f64>::into(number).is_infinite() && !named {
        return Err("is too large for this format code".into());
    }
    Ok(number)
}

/// A bit pattern that is written as one.
fn pattern(word: &str) -> Option<Result<u64, String>> {
    let digits = word.strip_prefix("0x").or(word.strip_prefix("0X"))?;
    // from_str_radix would take a sign
    let plain = digits.bytes().all(|c| c.is_ascii_hexdigit());
    let number = u64::from_str_radix(digits, 16).ok().filter(|_| plain);
    Some(number.ok_or("is no bit pattern of 64 bits".into()))
}

fn pattern_of_code_4(word: &str) -> Result<u64, String> {
    pattern(word).unwrap_or_else(|| Ok(float::<f32>(word)?.to_bits().into()))
}

fn pattern_of_code_5(word: &str) -> Result<u64, String> {
    pattern(word).unwrap_or_else(|| Ok(float::<f64>(word)?.to_bits()))
}

#[cfg(test)]
mod tests {
    use super::*;

    #[test]
    fn samples_are_read_as_they_are_printed() {
        assert_eq!(integer("-2147483648"), Ok(i32::MIN));
        assert!(integer("2147483648").is_err() && integer("1.5").is_err() && integer("").is_err());
        assert_eq!(pattern_of_code_4("1.0"), Ok(0x3F80_0000));
        assert_eq!(pattern_of_code_4("-inf"), Ok(0xFF80_0000));
        assert_eq!(pattern_of_code_4("0x7f800001"), Ok(0x7F80_0001));
        assert_eq!(pattern_of_code_5("0.1"), Ok(0.1_f64.to_bits()));
        assert!(pattern_of_code_4("1e39").is_err() && pattern_of_code_5("1e39").is_ok());
        assert!(pattern_of_code_5("1e309").is_err() && pattern_of_code_5("0,5").is_err());
        assert!(pattern_of_code_5("0x+1").is_err() && pattern_of_code_5("0x").is_err());
        assert!(pattern_of_code_5("0x10000000000000000").is_err());
    }
}
