//! A file that the strict rules refuse and the lenient reading takes (document 02, §11): which
//! refusal is forgiven, and what else is in the whole file. Where strings, blocks and lists
//! end is told by the proved lenient answers.

use super::file::Raw;
use super::{channel, may_follow, quoted, strings, Told};
use crate::files::grouped;
use seg2::{File, Pair, Refusal, Strings};
use std::ffi::OsStr;
use std::fmt::Write as _;

/// A file that is accepted leniently alone.
pub struct Leniently {
    /// The first row of the strict check that it meets.
    pub strict: Told,
    /// What is forgiven there.
    here: String,
}

impl Leniently {
    /// None where the file keeps the rules.
    pub fn of(name: &OsStr, file: &File) -> Option<Leniently> {
        let refusal = file.strict()?;
        Some(Leniently {
            strict: Told::of_file(name, file.bytes(), &refusal),
            here: forgiven_at(file.bytes(), &refusal),
        })
    }

    /// All lines, as those of a refusal, with what is forgiven in the whole file.
    pub fn text(&self, all: &Forgiven) -> String {
        let strict = &self.strict;
        let mut out = format!("{}: accepted leniently\n", strict.name);
        let _ = writeln!(out, "    by the strict rules: {}", strict.refusal);
        let _ = writeln!(out, "    found: {}", strict.found);
        out += &strict.shown;
        let _ = writeln!(out, "    forgiven: {}", self.here);
        let _ = writeln!(out, "    in all: {}", all.text());
        out += "    but: no trace can be added to such a file\n";
        let _ = writeln!(out, "    more: ./seg2 explain {}", strict.refusal.number);
        out
    }

    /// On one line, for a command that tells something else.
    pub fn sentence(&self) -> String {
        let Told { name, refusal, .. } = &self.strict;
        let here = &self.here;
        format!(
            "{name} is read leniently: by the strict rules it is {refusal}; forgiven: {here}; \
             `./seg2 check --lenient` tells more"
        )
    }
}

/// What is forgiven where the strict check stops.
fn forgiven_at(bytes: &[u8], refusal: &Refusal) -> String {
    let raw = Raw { bytes };
    let keyword = strings::keyword_at(raw, refusal.place);
    match refusal.number {
        14 => "the list of strings ends without its mark, where no byte is left for it".into(),
        16 => {
            let (said, counts) = (quoted(keyword), quoted(&keyword.to_ascii_uppercase()));
            format!("lower-case letters in the keyword {said}, which counts as {counts}")
        }
        17 if keyword == strings::keyword_before(raw, refusal) => {
            format!("that the keyword {} is there again", quoted(keyword))
        }
        17 => "the order of the keywords".into(),
        _ => "the channel numbers, which are not looked at".into(),
    }
}

/// How often the strict rules are broken in a file that is read leniently.
#[derive(Clone, Copy, Debug, Default, PartialEq)]
pub struct Forgiven {
    /// Keywords with lower-case letters.
    pub letters: usize,
    /// Keywords that may not follow the one before.
    pub order: usize,
    /// Lists of strings without an end mark.
    pub marks: usize,
    /// Traces with a bad channel number, or with one where trace 0 has none, or without.
    pub channels: usize,
}

impl Forgiven {
    pub fn of(file: &File) -> Forgiven {
        let mut all = Forgiven::default();
        let mut traces = file.traces().peekable();
        // the file's own strings end where the first trace starts
        let end = traces.peek().map_or(0, |trace| trace.start());
        all.count(file, file.strings(), end);
        let mut first = None;
        for trace in traces {
            let end = trace.start() + trace.block_size();
            let channel = all.count(file, trace.strings(), end);
            let first = *first.get_or_insert(channel);
            all.channels += usize::from(channel::is_refused(channel, first));
        }
        all
    }

    /// Counts what is forgiven in a list of strings whose area ends there, and answers its
    /// channel number.
    fn count<'a>(&mut self, file: &File<'a>, list: Strings<'a>, end: usize) -> Option<&'a [u8]> {
        let mut before: Option<Vec<u8>> = None;
        let mut channel = None;
        for (keyword, value) in list.clone() {
            let counts = keyword.to_ascii_uppercase();
            self.letters += usize::from(counts != keyword);
            let follows = before.is_none_or(|before| may_follow(&before, &counts));
            self.order += usize::from(!follows);
            if counts == b"CHANNEL_NUMBER" {
                channel = channel.or(Some(value));
            }
            before = Some(counts);
        }
        let unmarked = list.last().is_some_and(|last| end_of(file, last) == end);
        self.marks += usize::from(unmarked);
        channel
    }

    /// Each kind that is there, with its count.
    fn text(&self) -> String {
        let kinds = [
            (
                self.letters,
                "keyword with lower-case letters",
                "keywords with lower-case letters",
            ),
            (
                self.order,
                "keyword out of order or repeated",
                "keywords out of order or repeated",
            ),
            (
                self.marks,
                "list of strings without an end mark",
                "lists of strings without an end mark",
            ),
            (
                self.channels,
                "channel number bad or missing",
                "channel numbers bad or missing",
            ),
        ];
        let there = kinds.into_iter().filter(|(count, ..)| *count > 0);
        let said = there.map(|(count, one, more)| match count {
            1 => format!("1 {one}"),
            _ => format!("{} {more}", grouped(count)),
        });
        said.collect::<Vec<_>>().join(", ")
    }
}

/// Where a string of a file ends: behind its value and the terminator.
fn end_of(file: &File, (_, value): Pair) -> usize {
    // the value is a part of the file's bytes, so this is its place in them
    let start = value.as_ptr() as usize - file.bytes().as_ptr() as usize;
    start + value.len() + file.string_terminator().len()
}

#[cfg(test)]
mod tests {
    use super::*;
    use seg2_reference::generate::{mutated_old, old_case, plain_file, Model, PlainTrace, Rng};
    use seg2_reference::Order;

    /// Counts of letters, order, marks and channels.
    fn counted(bytes: &[u8]) -> [usize; 4] {
        let file = File::open_lenient(bytes).expect("an old file");
        let all = Forgiven::of(&file);
        [all.letters, all.order, all.marks, all.channels]
    }

    /// A file of these strings and traces, by the reference.
    fn file_of(own: &[&[u8]], traces: &[&[&[u8]]]) -> Vec<u8> {
        let traces: Vec<_> = traces.iter().map(|t| PlainTrace::of_strings(t)).collect();
        plain_file(Order::Low, own, &traces)
    }

    #[test]
    fn each_kind_is_counted_in_all_parts() {
        let sound: &[&[u8]] = &[b"STACK 1"];
        assert_eq!(counted(&file_of(&[b"UNITS M"], &[sound])), [0; 4]);
        let letters: &[&[u8]] = &[b"Delay 0", b"note", b"Note"];
        // the second NOTE may not follow the first
        assert_eq!(
            counted(&file_of(&[b"units M"], &[sound, letters])),
            [4, 1, 0, 0]
        );
        let order: &[&[u8]] = &[b"B", b"A", b"A", b"NOTE", b"C", b"D"];
        assert_eq!(counted(&file_of(order, &[order, sound])), [0, 6, 0, 0]);
        // what may repeat does
        let phones: &[&[u8]] = &[
            b"RECEIVER_GEOMETRY 1",
            b"RECEIVER_GEOMETRY 2",
            b"SOURCE_GEOMETRY 3",
        ];
        assert_eq!(counted(&file_of(phones, &[phones])), [0; 4]);
        let small: &[&[u8]] = &[b"receiver_geometry 1", b"RECEIVER_GEOMETRY 2"];
        assert_eq!(counted(&file_of(&[], &[small])), [1, 0, 0, 0]);
        let (five, bad): (&[&[u8]], &[&[u8]]) = (&[b"CHANNEL_NUMBER 5"], &[b"channel_number x"]);
        assert_eq!(
            counted(&file_of(five, &[sound, five, sound, bad])),
            [1, 0, 0, 2]
        );
        assert_eq!(
            counted(&file_of(&[], &[five, sound, bad, five])),
            [1, 0, 0, 2]
        );
        assert_eq!(counted(&file_of(&[], &[bad, bad])), [2, 0, 0, 2]);
    }

    /// Strings of 16 bytes in all, in an area of 20: with the mark taken out they fill it.
    #[test]
    fn lists_without_an_end_mark_are_counted() {
        let texts: &[&[u8]] = &[b"UNITS INCHES1"];
        let mut bytes = file_of(texts, &[texts, texts]);
        let starts: Vec<usize> = {
            let file = File::open(&bytes).expect("a file");
            let parts = file.traces().map(|trace| trace.start() + 32);
            std::iter::once(40).chain(parts).collect()
        };
        for (i, start) in starts.into_iter().enumerate() {
            assert_eq!(&bytes[start..start + 2], [16, 0]);
            bytes[start] = 20;
            bytes[start + 15..start + 19].copy_from_slice(b"ABCD");
            assert_eq!(counted(&bytes), [0, 0, i + 1, 0]);
        }
    }

    /// Something is counted exactly where the strict rules refuse a file, and what they refuse
    /// first is among it.
    #[test]
    fn what_is_counted_is_what_the_strict_rules_refuse() {
        let mut rng = Rng::new(411);
        let mut seen = [0; 5];
        for i in 0..3000 {
            let (buffer, length) = match i % 4 {
                0 => mutated_old(&mut rng),
                1 => {
                    let laid = Model::random(&mut rng).lay();
                    (laid.buffer, laid.length)
                }
                _ => {
                    let case = old_case(&mut rng);
                    (case.buffer, case.length)
                }
            };
            let Ok(file) = File::open_lenient_prefix(&buffer, length) else {
                continue;
            };
            let all = Forgiven::of(&file);
            let Some(strict) = file.strict() else {
                assert_eq!(all, Forgiven::default());
                seen[4] += 1;
                continue;
            };
            let (kind, count) = match strict.number {
                14 => (0, all.marks),
                16 => (1, all.letters),
                17 => (2, all.order),
                _ => (3, all.channels),
            };
            assert!(count > 0, "{strict}: {all:?}");
            seen[kind] += 1;
            let leniently = Leniently::of(OsStr::new("old"), &file).expect("an old file");
            assert!(leniently.text(&all).contains(&strict.to_string()));
            assert!(!all.text().is_empty());
        }
        assert!(seen.iter().all(|&count| count > 20), "{seen:?}");
    }

    #[test]
    fn one_of_a_kind_is_told_as_one() {
        let all = Forgiven {
            letters: 1,
            order: 2,
            marks: 0,
            channels: 1000,
        };
        let said = "1 keyword with lower-case letters, 2 keywords out of order or repeated, 1,000 channel numbers bad or missing";
        assert_eq!(all.text(), said);
        let all = Forgiven {
            order: 1,
            marks: 2,
            channels: 1,
            ..Forgiven::default()
        };
        let said = "1 keyword out of order or repeated, 2 lists of strings without an end mark, 1 channel number bad or missing";
        assert_eq!(all.text(), said);
    }
}
