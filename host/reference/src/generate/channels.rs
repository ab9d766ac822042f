//! Channel numbers (document 02, §7): values that are ones, values that are none, and their
//! place among other strings and lines.

use super::model::{random_text, AreaModel, End, Model, StringModel};
use super::rng::Rng;
use crate::worked::NO_CHANNEL_NUMBERS;

pub(super) const KEYWORD: &[u8] = b"CHANNEL_NUMBER";

/// "a number by document 01, 1 to 32,767, without point or E": plain digits, sometimes with
/// zeros in front.
pub fn good_channel(rng: &mut Rng) -> Vec<u8> {
    let any = rng.between(1, 32_767);
    let number = rng.pick(&[1, 2, 10, 24, any, any, 32_766, 32_767]);
    let digits = match rng.one_in(4) {
        true => rng.between(1, 18),
        false => 1,
    };
    format!("{number:0>digits$}").into()
}

/// A value that is no channel number.
pub fn bad_channel(rng: &mut Rng) -> Vec<u8> {
    let good = good_channel(rng);
    match rng.between(0, 10) {
        0 | 1 => rng.pick(NO_CHANNEL_NUMBERS).into(),
        2 => over_the_largest(rng),
        3 => vec![b'0'; rng.between(1, 20)],
        4 => [b"-", &good[..]].concat(),
        5 => [b"+", &good[..]].concat(),
        6 => [&good[..], rng.pick(&[&b".0"[..], b".", b".5", b".000"])].concat(),
        7 => [
            &good[..],
            rng.pick(&[&b"E0"[..], b"E", b"E1", b"E-1", b"E00"]),
        ]
        .concat(),
        8 => [&good[..], rng.pick(&[&b" "[..], b"  ", b" 1", b"a"])].concat(),
        9 => too_many_digits(rng),
        _ => with_another_sign(rng, good),
    }
}

/// 32,768 and more, with those that 16, 32 or 64 bits would take for a good one.
fn over_the_largest(rng: &mut Rng) -> Vec<u8> {
    let near = rng.between(32_768, 32_800) as u128;
    let any = u128::from(rng.bits() >> rng.between(0, 48)) + 32_768;
    let wrapped = [1 << 16, 1 << 32, 1 << 64].map(|turn: u128| turn + 7);
    let number = rng.pick(&[
        32_768, 32_769, near, any, wrapped[0], wrapped[1], wrapped[2],
    ]);
    number.to_string().into()
}

/// "At most 18 digits before E, leading zeros counted"
fn too_many_digits(rng: &mut Rng) -> Vec<u8> {
    let digits = rng.between(19, 30);
    let number = rng.pick(&[1, 7, 32_767]);
    format!("{number:0>digits$}").into()
}

/// A digit gives way to a sign that is none.
fn with_another_sign(rng: &mut Rng, mut value: Vec<u8>) -> Vec<u8> {
    let at = rng.between(0, value.len() - 1);
    value[at] = another_sign(rng);
    value
}

/// What no channel number holds, wherever it stands.
pub(super) fn another_sign(rng: &mut Rng) -> u8 {
    rng.pick(b"+-,.EeAx/:;_")
}

/// A value of a string that nobody judges: a file's own.
fn any_channel(rng: &mut Rng) -> Vec<u8> {
    match rng.between(0, 2) {
        0 => good_channel(rng),
        1 => bad_channel(rng),
        _ => random_text(rng, false),
    }
}

/// A channel number for the sheet of an addition, to a file whose traces have one or have
/// none (`None` where it has no traces), and whether the addition takes it. Most often it
/// does; else the value is bad, missing, or one too many.
pub fn channel_for(rng: &mut Rng, traces_have_it: Option<bool>) -> (Option<Vec<u8>>, bool) {
    let wanted = traces_have_it.unwrap_or_else(|| rng.one_in(2));
    let value = |rng: &mut Rng, there: bool| there.then(|| good_channel(rng));
    match rng.between(0, 7) {
        0 => (Some(bad_channel(rng)), false),
        1 if traces_have_it.is_some() => (value(rng, !wanted), false),
        _ => (value(rng, wanted), true),
    }
}

/// The sheet with a line for the value, before the first line whose keyword is greater or
/// NOTE. What is wrong with the lines stays wrong.
pub fn with_channel(sheet: &[u8], value: &[u8]) -> Vec<u8> {
    let mut lines: Vec<&[u8]> = sheet.split_inclusive(|&c| c == b'\n').collect();
    let keywords = lines.iter().map(|line| keyword_of(line));
    let at = place_among(keywords);
    let line = [KEYWORD, b"\t", value, b"\n"].concat();
    lines.insert(at, &line);
    lines.concat()
}

fn keyword_of(line: &[u8]) -> &[u8] {
    let end = line.iter().position(|c| b"\t\n".contains(c));
    &line[..end.unwrap_or(line.len())]
}

/// How many strings stand before CHANNEL_NUMBER: keywords rise, and NOTE is last.
pub(super) fn place_among<'a>(keywords: impl Iterator<Item = &'a [u8]>) -> usize {
    keywords
        .take_while(|&keyword| keyword != b"NOTE" && keyword < KEYWORD)
        .count()
}

impl AreaModel {
    /// The value of its channel number, if it has one.
    pub fn channel(&self) -> Option<&[u8]> {
        let string = self.strings.iter().find(|s| s.keyword == KEYWORD)?;
        Some(&string.lines[0])
    }

    /// Gives the area a channel number, in the place of one that it has.
    pub fn put_channel(&mut self, rng: &mut Rng, value: Vec<u8>) {
        self.drop_channel();
        let at = place_among(self.strings.iter().map(|s| &s.keyword[..]));
        let string = StringModel::new(rng, KEYWORD.into(), vec![value]);
        self.strings.insert(at, string);
        if let End::Nothing = self.end {
            self.end = End::Mark(Vec::new());
        }
    }

    pub fn drop_channel(&mut self) {
        self.strings.retain(|s| s.keyword != KEYWORD);
    }
}

impl Model {
    /// Every trace gets a channel number.
    pub fn number_traces(&mut self, rng: &mut Rng) {
        for trace in &mut self.traces {
            let value = good_channel(rng);
            trace.area.put_channel(rng, value);
        }
    }

    /// "The paper says that if one trace block has it, all must": all or none, as often. A
    /// string of that name among the file's own is no channel number of a trace.
    pub(super) fn choose_channels(&mut self, rng: &mut Rng) {
        if rng.one_in(2) {
            self.number_traces(rng);
        }
        if rng.one_in(6) {
            let value = any_channel(rng);
            self.area.put_channel(rng, value);
        }
    }

    /// The traces' channel numbers in all or none: by the first of them, `None` without any.
    pub fn traces_have_channels(&self) -> Option<bool> {
        let first = self.traces.first()?;
        Some(first.area.channel().is_some())
    }

    /// The first trace that has one where trace 0 has none, or has none where it has one.
    pub(super) fn first_other(&self) -> Option<usize> {
        let has = |k: usize| self.traces[k].area.channel().is_some();
        (0..self.traces.len()).find(|&k| has(k) != has(0))
    }
}

/// A line for a channel number that nobody judges, now and then: a start takes any.
pub fn sheet_of_a_start(rng: &mut Rng, sheet: Vec<u8>) -> Vec<u8> {
    match rng.one_in(4) {
        true => with_channel(&sheet, &any_channel(rng)),
        false => sheet,
    }
}

#[cfg(test)]
mod tests {
    use super::*;

    #[test]
    fn the_line_stands_at_its_sorted_place() {
        let put = |sheet: &str| String::from_utf8(with_channel(sheet.as_bytes(), b"7"));
        for (sheet, expected) in [
            ("", "CHANNEL_NUMBER\t7\n"),
            ("A\t1\nZ\t2\n", "A\t1\nCHANNEL_NUMBER\t7\nZ\t2\n"),
            (
                "NOTE\tx\nNOTE\t y\n",
                "CHANNEL_NUMBER\t7\nNOTE\tx\nNOTE\t y\n",
            ),
            (
                "CHANNEL\t1\nCHANNEL_NUMBERS\t2\n",
                "CHANNEL\t1\nCHANNEL_NUMBER\t7\nCHANNEL_NUMBERS\t2\n",
            ),
        ] {
            assert_eq!(put(sheet).as_deref(), Ok(expected));
        }
    }
}
