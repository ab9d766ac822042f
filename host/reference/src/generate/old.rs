//! Files of older recorders (document 02, §11): strings in any order, some again, keywords in
//! lower case, areas without an end mark, channel numbers in some traces. What the two readings
//! say of them, and of damages on top, is told by the layout.

use super::asking::mutated_laid;
use super::channels::{bad_channel, good_channel, KEYWORD};
use super::damage::{damaged_laid, turn, Scope, Way};
use super::lay::Laid;
use super::model::{
    may_repeat, random_note_lines, random_text, AreaModel, End, Model, StringModel,
};
use super::rng::Rng;
use super::ways::{lengthen_last, WAYS};
use crate::check::File;
use crate::refusal::Refusal;
use crate::strings::StringPlace;

/// A file of an older recorder, and what both readings say of it.
#[derive(Clone, Debug)]
pub struct OldCase {
    /// What was done to the file.
    pub name: &'static str,
    pub buffer: Vec<u8>,
    pub length: usize,
    /// The strict check's row, if it has one.
    pub strict: Option<Refusal>,
    /// What the lenient check answers.
    pub lenient: Result<File, Refusal>,
}

/// A file as it is, or damaged in some way.
pub fn old_case(rng: &mut Rng) -> OldCase {
    if rng.one_in(2) {
        let model = Model::old(rng);
        return told("an old file", &model, model.lay(), None);
    }
    loop {
        let way = &WAYS[rng.between(0, WAYS.len() - 1)];
        if way.scope != Scope::Image {
            return old_damaged(rng, way);
        }
    }
}

/// An old file damaged in the given way, which is one of files.
pub fn old_damaged(rng: &mut Rng, way: &Way) -> OldCase {
    loop {
        let mut model = Model::old(rng);
        let Some((laid, row)) = damaged_laid(rng, way, &mut model) else {
            continue;
        };
        if model.areas_end_at_4() {
            // What is forgiven is told by the layout alone: here another row may come before.
            let own = (!way.forgiven).then_some(row);
            return told(way.name, &model, laid, own);
        }
    }
}

/// An old file with random changes; nothing is known about it.
pub fn mutated_old(rng: &mut Rng) -> (Vec<u8>, usize) {
    let laid = Model::old(rng).lay();
    mutated_laid(rng, laid)
}

/// Both answers, with a row that both readings give.
fn told(name: &'static str, model: &Model, laid: Laid, both: Option<Refusal>) -> OldCase {
    let [strict, lenient] = [true, false].map(|strict| {
        let own = first_row(model, &laid, strict);
        own.into_iter().chain(both).min_by_key(turn)
    });
    OldCase {
        name,
        buffer: laid.buffer,
        length: laid.length,
        strict,
        lenient: lenient.map_or(Ok(laid.file), Err),
    }
}

// ---- habits of older recorders

impl Model {
    /// A file of an older recorder: the lenient reading takes it.
    pub fn old(rng: &mut Rng) -> Model {
        let mut model = Model::random(rng);
        model.age(rng);
        model
    }

    /// The file as an older recorder would write it. It has each habit or has it not, and not
    /// in every area.
    pub fn age(&mut self, rng: &mut Rng) {
        let [some_channels, again, any_order, any_letters, full] = [(); 5].map(|()| rng.one_in(2));
        if some_channels {
            self.number_some(rng);
            // Row 34 comes behind all strings: half of the time nothing stands before it.
            if rng.one_in(2) {
                return;
            }
        }
        for part in -1..self.traces.len() as i64 {
            let area = self.area_mut(part);
            if again && rng.one_in(2) {
                area.put_again(rng);
            }
            if any_order && rng.one_in(2) {
                area.shuffle(rng);
            }
            if any_letters && rng.one_in(2) {
                area.mix_letters(rng);
            }
            if full && rng.one_in(2) && lengthen_last(self, part, 0).is_some() {
                self.area_mut(part).end = End::Nothing;
            }
        }
    }

    /// Some traces get a channel number, good or bad, and some lose theirs.
    fn number_some(&mut self, rng: &mut Rng) {
        for trace in &mut self.traces {
            match rng.between(0, 5) {
                0 => trace.area.drop_channel(),
                1 => {
                    let value = bad_channel(rng);
                    trace.area.put_channel(rng, value);
                }
                2 => {
                    let value = good_channel(rng);
                    trace.area.put_channel(rng, value);
                }
                _ => {}
            }
        }
    }

    /// Whether an area without an end mark fills whole words: blocks start there.
    fn areas_end_at_4(&self) -> bool {
        let whole = |part: i64| {
            let area = self.area(part);
            let size = area.strings_size(&self.string_terminator, &self.line_terminator);
            !matches!(area.end, End::Nothing) || size % 4 == 0
        };
        (-1..self.traces.len() as i64).all(whole)
    }
}

impl AreaModel {
    /// Strings once more, with another value, and NOTEs, of one line or several, anywhere.
    fn put_again(&mut self, rng: &mut Rng) {
        for _ in 0..rng.between(1, 3) {
            let any = rng.between(0, self.strings.len());
            let at = rng.pick(&[any, any, self.strings.len()]);
            let string = match self.strings.is_empty() || rng.one_in(3) {
                true => {
                    let lines = random_note_lines(rng, true);
                    StringModel::note(rng, lines)
                }
                false => self.another_like(rng),
            };
            self.strings.insert(at, string);
        }
        if let End::Nothing = self.end {
            self.end = End::Mark(Vec::new());
        }
    }

    /// A string with the keyword of one that is there.
    fn another_like(&self, rng: &mut Rng) -> StringModel {
        let like = rng.pick(&self.strings);
        let lines = match like.keyword == b"NOTE" {
            true => random_note_lines(rng, true),
            false => vec![random_text(rng, true)],
        };
        StringModel::new(rng, like.keyword, lines)
    }

    fn shuffle(&mut self, rng: &mut Rng) {
        for i in 1..self.strings.len() {
            self.strings.swap(i, rng.between(0, i));
        }
    }

    /// Keywords in lower case, with a capital, or in letters of both kinds.
    fn mix_letters(&mut self, rng: &mut Rng) {
        for string in &mut self.strings {
            let word = &mut string.keyword;
            match rng.between(0, 4) {
                0 => word.make_ascii_lowercase(),
                1 => word[1..].make_ascii_lowercase(),
                2 => {
                    let letter = rng.between(0, word.len() - 1);
                    word[letter].make_ascii_lowercase();
                }
                3 => {
                    let lower = |letter: &&mut u8| letter.is_ascii_uppercase();
                    for letter in word.iter_mut().filter(lower) {
                        *letter |= rng.pick(&[0, 0x20]);
                    }
                }
                _ => {}
            }
        }
    }
}

// ---- what the readings say

/// The first row that the strings of a model break, where its layout is a file's otherwise.
fn first_row(model: &Model, laid: &Laid, strict: bool) -> Option<Refusal> {
    laid.parts().into_iter().find_map(|part| {
        let of_strings = string_row(model, laid, part, strict);
        let of_end = of_strings.or_else(|| end_row(model, laid, part, strict));
        of_end.or_else(|| channel_row(laid, part).filter(|_| strict))
    })
}

/// The keyword as it stands in the file, which a damage may have changed.
fn word<'a>(laid: &'a Laid, string: &StringPlace) -> &'a [u8] {
    &laid.buffer[string.keyword.clone()]
}

/// Rows 16 and 17 of a part's strings, at the offset of the first that breaks one.
fn string_row(model: &Model, laid: &Laid, part: i64, strict: bool) -> Option<Refusal> {
    let mut before = None;
    for (string, place) in model.area(part).strings.iter().zip(laid.strings(part)) {
        let word = word(laid, place);
        let is_note = match strict {
            true => word == b"NOTE",
            false => word.eq_ignore_ascii_case(b"NOTE"),
        };
        let lower = word.iter().any(u8::is_ascii_lowercase);
        let out_of_order = before.is_some_and(|before| !rises(before, word));
        let rows = [
            (16, strict && lower || string.lines.len() > 1 && !is_note),
            (17, strict && out_of_order),
        ];
        if let Some((number, _)) = rows.into_iter().find(|row| row.1) {
            return Some(Refusal::new(number, part, place.keyword.start - 2));
        }
        before = Some(word);
    }
    None
}

/// Keywords rise, NOTE as the greatest; two of them may run.
fn rises(before: &[u8], word: &[u8]) -> bool {
    let rank = |word: &[u8]| (word == b"NOTE", word.to_vec());
    rank(before) < rank(word) || before == word && may_repeat(word)
}

/// Row 14 of what ends a part's strings.
fn end_row(model: &Model, laid: &Laid, part: i64, strict: bool) -> Option<Refusal> {
    let (area, end) = (model.area(part), laid.area(part).end);
    let place = match area.end {
        End::Nothing if strict && !area.strings.is_empty() => end,
        End::Byte(_) => end - 1,
        _ => return None,
    };
    Some(Refusal::new(14, part, place))
}

/// Row 34 of a trace.
fn channel_row(laid: &Laid, part: i64) -> Option<Refusal> {
    let value = |part: i64| {
        let mut strings = laid.strings(part).iter();
        let found = strings.find(|string| word(laid, string) == KEYWORD)?;
        Some(&laid.buffer[found.value.clone()])
    };
    if part < 0 {
        return None;
    }
    let bad = value(part).is_some_and(|value| !is_channel(value));
    let alone = value(part).is_some() != value(0).is_some();
    (bad || alone).then(|| Refusal::new(34, part, laid.area(part).start))
}

/// One to eighteen digits whose number is 1 to 32,767.
fn is_channel(value: &[u8]) -> bool {
    let digits = value.len() <= 18 && value.iter().all(u8::is_ascii_digit);
    let number = String::from_utf8_lossy(value).parse::<u64>();
    digits && number.is_ok_and(|number| (1..=32_767).contains(&number))
}
