//! The refusal table in plain words: the rule behind each row, and what to do.

use crate::files::print;
use crate::options::{whole, Options};
use crate::stop::{unusable, Answer};
use seg2::{Place, Refusal};

/// A row: what it says, what its place is, what the rule is, and what to do.
pub fn run(given: &Options) -> Answer {
    let [number] = given.exactly()?;
    let number: u32 = whole(
        number,
        &format!("refusal's number: {}", told(seg2::numbers())),
    )?;
    let Some((rule, to_do)) = row(number) else {
        let there = told(seg2::numbers());
        return Err(unusable(format!(
            "the table has no number {number}: it has {there}"
        )));
    };
    let said = format!(
        "{number}: {}\nplace: {}\nrule: {rule}\nto do: {to_do}\n",
        seg2::text(number),
        place(number)
    );
    print(said.as_bytes())
}

/// Rising numbers as their runs: `1 to 3, 5`.
fn told(numbers: impl Iterator<Item = u32>) -> String {
    let mut runs: Vec<(u32, u32)> = Vec::new();
    for number in numbers {
        match runs.last_mut() {
            Some((_, last)) if *last + 1 == number => *last = number,
            _ => runs.push((number, number)),
        }
    }
    let run = |&(first, last): &(u32, u32)| match first == last {
        true => first.to_string(),
        false => format!("{first} to {last}"),
    };
    runs.iter().map(run).collect::<Vec<_>>().join(", ")
}

fn place(number: u32) -> &'static str {
    let refusal = Refusal {
        number,
        part: -1,
        place: 0,
    };
    match (number, refusal.counts()) {
        (14..=17, _) => "the string's two-byte offset, a byte of the file",
        (34, _) => "where the trace's strings start, a byte of the file: 32 behind the start of its block",
        (20 | 21, _) => "where the number starts in the keyword's value; 0 for a text by itself, and for a number to be written",
        (_, Place::File) => "a byte of the file",
        (_, Place::Value) => "where the number starts in the keyword's value",
        (_, Place::Sheet) => "where the line starts in the sheet",
        (_, Place::Row) => "the sample's index, counted from 0",
        (_, Place::Nothing) => "always 0",
    }
}

/// What to do about a refusal.
pub fn to_do(number: u32) -> &'static str {
    row(number).map_or("", |(_, to_do)| to_do)
}

/// The rule behind a row, and what to do.
#[rustfmt::skip]
fn row(number: u32) -> Option<(&'static str, &'static str)> {
    Some(match number {
        1 => ("A file has 32 to 67,108,864 bytes. A shorter one was cut off or is no shot file.",
              "copy the file again from where it was recorded"),
        2 => ("A SEG-2 file starts with 55 3A (low byte first) or 3A 55 (high byte first). Other bytes: another kind of file, or one that was changed on its way, as by a transfer as text.",
              "look whether this is the right file, and copy it again as binary, not as text"),
        3 => ("Bytes 2 and 3 have to be 1, the only revision there is.",
              "let the instrument save the shot as SEG-2, revision 1"),
        4 => ("Bytes 4 and 5 are the size of the room for pointers: 4 bytes for each, so a multiple of 4 and at least 4.",
              "copy the file again; if it stays so, the program that wrote it is wrong"),
        5 => ("Bytes 6 and 7 are the number of traces: at least 1, and each needs 4 bytes of pointer room. A file that was started and has no trace yet is refused by this; adding a trace makes it a file.",
              "add a trace with `./seg2 add`; where traces were recorded, copy the file again"),
        6 => ("Bytes 8 to 10 are the string terminator, 11 to 13 the line terminator: a length of 1 or 2, then characters of 0 to 31 without tab. The two share no character.",
              "let the instrument save the shot again with usual terminators, as 00h and 0Ah"),
        7 => ("The pointers start at byte 32; all of their room has to lie in the file. The file was cut off, or bytes 4 and 5 are wrong.",
              "copy the file again from where it was recorded"),
        8 => ("Traces follow each other: a pointer is a multiple of 4, leads behind the trace before it (the first one behind the pointer room), and 32 bytes of block lie in the file. Often the file was cut off. Where `./seg2 value` reads one trace alone, its pointer may lead anywhere behind the pointer room.",
              "copy the file again; if it stays so, the program that wrote it is wrong"),
        9 => ("A trace block starts with 4422h in the file's byte order. The pointer is wrong, or the block was overwritten.",
              "copy the file again as binary, not as text"),
        10 => ("A trace block has at least 32 bytes, a multiple of 4, and ends in the file.",
               "copy the file again; if it stays so, the program that wrote it is wrong"),
        11 => ("A trace's data is a multiple of 4 bytes and ends in the file. At the last trace: the file was cut off.",
               "copy the file again; if it stays so, the program that wrote it is wrong"),
        12 => ("Codes: 1 and 2 are fixed point of 16 and 32 bits; 3, 4 and 5 floating point of 20, 32 and 64 bits.",
               "let the instrument save the shot with one of these codes"),
        13 => ("A sample needs 2, 4, 2.5, 4 or 8 bytes under codes 1 to 5, and all have to fit the data. Under code 3 they come in groups of 4.",
               "copy the file again; if it stays so, the program that wrote it is wrong"),
        14 => ("A string starts with the distance to the next one, and 0 ends the list. The distance has to leave room for a keyword of one character and the terminator, and to stay in the block. Older recorders leave the 0 out where the strings fill their room: `./seg2 check --lenient` forgives that, and nothing else of this row.",
               "copy the file again as binary; if it stays so, the program that wrote it is wrong"),
        15 => ("The last bytes of a string have to be the file's string terminator. The distance before it is wrong, or the terminator was changed.",
               "copy the file again as binary; if it stays so, the program that wrote it is wrong"),
        16 => ("A keyword uses capitals, digits and signs (33 to 126 without a to z) and is not empty; a value uses 32 to 126 and tab; a NOTE also whole line terminators. Older recorders write keywords in lower case: `./seg2 check --lenient` takes a to z as capitals, and forgives nothing else of this row.",
               "set the keyword in capitals and the value in plain letters where the shot is recorded, and save it again"),
        17 => ("Keywords rise in byte order, each once, and NOTE comes last. RECEIVER_GEOMETRY and SOURCE_GEOMETRY alone may stand several times, one directly behind the other. Older recorders keep no order: `./seg2 check --lenient` takes any, and repeats too.",
               "let the program that wrote the file sort its strings by their keywords, and save it again"),
        18 => ("The file is a part, and so is each trace. Traces count from 0, so the last one has the number of traces less 1.",
               "ask for a trace that is there: `./seg2 list` shows them"),
        19 => ("The listing program takes files of up to 65,536 bytes; `./seg2 list` takes all.",
               "use `./seg2 list`"),
        20 => ("A number is a minus or nothing, digits, then perhaps a point with digits, then perhaps E, a minus or nothing, and digits. No comma, no plus, no spaces: 0,5 is no number. A missing keyword has no number either. Where an app gives a number to be written, a zero has no minus.",
               "correct the value where the shot is recorded, or ask for another keyword: `./seg2 list` shows them"),
        21 => ("At most 18 digits before E and 2 behind it, where a number is read and where an app gives one to be written; zeros count.",
               "write the number with fewer digits"),
        22 => ("As a double a number has a coefficient of at most 9,007,199,254,740,991 and a power of ten of -15 to 15. It is still a number.",
               "ask for it as a number (`--as number`), or write it with fewer digits"),
        23 => ("A location is x alone, or x, y and z, with spaces or tabs between them. A missing keyword has no location.",
               "write one value or three, or ask for another keyword: `./seg2 list` shows them"),
        24 => ("Each trace takes one of the slots that the file was started with.",
               "start a new file with more slots: `./seg2 new FILE --slots N`"),
        25 => ("A line is a keyword, one tab, a value that does not start with a space, and the line end 0Ah. Common reasons: spaces for the tab, a keyword in small letters, a second tab, an accent, an empty last line, line ends of 0Dh 0Ah, a byte order mark.",
               "mend this line of the sheet, and save it as plain text (ASCII)"),
        26 => ("The sheet's keywords rise in byte order, each once; NOTE lines come last, one directly behind the other. RECEIVER_GEOMETRY and SOURCE_GEOMETRY alone may have several lines, one directly behind the other.",
               "put the lines of the sheet in the order of their keywords, as `LC_ALL=C sort -s -k1,1` does, NOTE last"),
        27 => ("The strings of one block, with their offsets, terminators and end mark, are at most 65,500 bytes.",
               "shorten the sheet"),
        28 => ("Codes 1 to 3 take integers, 4 and 5 bit patterns. Code 3 takes samples in groups of 4.",
               "choose another code, or fill the samples up to a multiple of 4"),
        29 => ("Code 1 holds -32,768 to 32,767; code 3 holds magnitudes below 1,073,741,824; a pattern of code 4 has 32 bits.",
               "choose a code that holds these samples: 2, 4 or 5"),
        30 => ("The file would be longer than the buffer that was lent, or than 67,108,864 bytes; or the text of a number, which is to be written, than the bytes that were lent for it: 24 are enough for each.",
               "start another file for the traces that come"),
        31 => ("A file is started with 1 to 16,383 pointer slots, low byte first (0) or high byte first (1).",
               "choose --slots of 1 to 16383"),
        32 => ("The row that takes the samples has as many elements as the trace has samples; the row that takes the places of strings has four for each string.",
               "ask for the trace's block first, and lend as many elements as it has samples; or ask for the number of strings, and lend four times as many"),
        33 => ("The samples of codes 1 to 3 are read as integers; those of code 3, floating point of 20 bits, are whole numbers too. The samples of codes 4 and 5 are read as bit patterns.",
               "use `./seg2 samples` without --bits, which takes all codes"),
        34 => ("A trace may have a CHANNEL_NUMBER: 1 to 32,767 in plain digits, at most 18 of them, without sign, point, E or spaces. If one trace has it, all must; each is held to trace 0, the first. The file's own strings are free. `./seg2 check --lenient` does not look at channel numbers.",
               "give every trace a channel number of 1 to 32767, or none, where the shot is recorded, and save it again"),
        35 => ("The first trace of a file chooses whether traces have a CHANNEL_NUMBER; each sheet that follows has one if it has, and none if it has none. It is 1 to 32,767 in plain digits, at most 18 of them, without sign, point, E or spaces.",
               "look at trace 0 with `./seg2 list`: give the sheet a line CHANNEL_NUMBER, tab, 1 to 32767 where it has one, and take the line out where it has none"),
        _ => return None,
    })
}

#[cfg(test)]
mod tests {
    use super::*;

    #[test]
    fn every_row_has_a_rule_of_its_own_and_something_to_do() {
        let rows: Vec<_> = (0..100).filter(|&number| row(number).is_some()).collect();
        assert_eq!(rows, seg2::numbers().collect::<Vec<_>>());
        let words: Vec<_> = rows.into_iter().filter_map(row).collect();
        let rules: std::collections::BTreeSet<_> = words.iter().map(|(rule, _)| rule).collect();
        assert_eq!(rules.len(), words.len());
        assert!(words
            .iter()
            .all(|(rule, to_do)| !rule.is_empty() && !to_do.is_empty()));
        assert_eq!((row(0), row(99), to_do(99)), (None, None, ""));
    }

    #[test]
    fn numbers_are_told_by_their_runs() {
        assert_eq!(told([1, 2, 3, 5, 7, 8].into_iter()), "1 to 3, 5, 7 to 8");
        assert_eq!(told([4].into_iter()), "4");
    }
}
