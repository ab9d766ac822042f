//! The commands, each with its words, its options and its help.

use crate::options::Options;
use crate::stop::Answer;
use crate::{check, explain, list, samples, value, write};

/// A command.
pub struct Command {
    pub name: &'static str,
    /// What stands behind its name.
    words: &'static str,
    /// What it does, on one line.
    does: &'static str,
    pub options: &'static [Known],
    /// What else is worth knowing.
    more: &'static str,
    pub run: fn(&Options) -> Answer,
}

/// An option that a command knows.
pub struct Known {
    pub name: &'static str,
    /// What its value is called; empty where it has none.
    pub value: &'static str,
    does: &'static str,
}

/// An option: its name, its value's name, what it does.
const fn known(name: &'static str, value: &'static str, does: &'static str) -> Known {
    Known { name, value, does }
}

const JSON: Known = known("--json", "", "an object a line for each file");
const LENIENT: Known = known("--lenient", "", "reads files of older recorders too");

pub const COMMANDS: [Command; 7] = [
    Command {
        name: "check",
        words: "FILE..",
        does: "does each file keep the rules? else what is wrong, where, what to do",
        options: &[
            known(
                "--quiet",
                "",
                "tells of refused files alone, without the last line",
            ),
            LENIENT,
            JSON,
        ],
        more: "
A folder stands for every plain file in it and in its folders, in sorted order; links to
folders are not followed. Behind several files a last line counts the accepted and the
refused ones.

--lenient forgives what older recorders do: keywords in lower case, in any order or several
times, lists of strings that fill their room and have no end mark, channel numbers in some
traces alone. It forgives nothing else. A file that keeps the rules is accepted; one that
needs this is accepted leniently, and the rule that it breaks first is told, what is
forgiven there, and what in the whole file. The exit status is 0 for both, and the last line
counts them apart. No trace can be added to a file that is accepted leniently.

--json: name, accepted; where it is not, number, part (-1 the file, else the trace),
place, text, found, to_do; where the file cannot be read, error instead. With --lenient
also lenient: true where the file is accepted leniently alone. Then strict has the refusal
of the strict rules (number to to_do), and forgiven the counts lower_case, order (keywords
out of order or repeated), end_marks and channel_numbers. A refused file has strict where
the strict rules stop at another place or by another number.
",
        run: check::run,
    },
    Command {
        name: "list",
        words: "FILE..",
        does: "its blocks and strings, with tabs between the fields",
        options: &[LENIENT, JSON],
        more: "
Lines: SEG2, order, traces, bytes of pointer room; S, part (F the file), keyword, value;
T, trace, code, samples; R, number, part, place where the file is refused. A tab in a
value is printed as a space, each line of a NOTE as a line of its own. Of several files
each begins with a line FILE, name.

--lenient reads what `seg2 check --lenient` accepts. Keywords are listed in capitals, as
they count, in the order of the file, repeats too. Where the strict rules refuse the file,
standard error says so, and the exit status is 0.

--json: name, accepted, order, pointer_room, strings, traces; a trace has index, code,
sample_count, strings; a string has keyword and value, a NOTE also lines. Strings are
bytes: one outside ASCII is told as the character of its number, so E9h as \\u00e9. The
name is told as text; where it is none, byte by byte as well, with its bytes in
hexadecimal as name_bytes. A refused file is told as by check --json; with --lenient there
are also lenient and strict, as by check.
",
        run: list::run,
    },
    Command {
        name: "samples",
        words: "FILE TRACE | FILE --all",
        does: "a trace's samples, one a line; traces count from 0",
        options: &[
            known("--all", "", "all traces as CSV"),
            known("--bits", "", "as bit patterns (codes 4 and 5)"),
        ],
        more: "
Codes 1 to 3 are printed as whole numbers, codes 4 and 5 as the shortest decimal that
reads back as the same number, or nan, inf, -inf. --all prints a column for each trace:
first a line with their numbers, then a line for each sample; a trace with fewer samples
than another has empty cells at its end.
",
        run: samples::run,
    },
    Command {
        name: "value",
        words: "FILE PART KEYWORD",
        does: "the value of a keyword; the part is F for the file, else a trace",
        options: &[known(
            "--as",
            "KIND",
            "text (without it), number, double or location",
        )],
        more: "
-1 is the file too. Each line of a NOTE is printed as a line. A number is printed with the
decimals that it was written with, 0.250 and not 0.25, and without zeros in front; a
location as x, or x, y and z with spaces between them, each so. RECEIVER_GEOMETRY and
SOURCE_GEOMETRY may stand several times in a part: this is the first of them, and `seg2
list` shows them all. A keyword that is not there: nothing is printed, the exit status is
1, and standard error says so.

The text of a trace's value is read without a check of the file: the file block and that
trace's strings, up to the keyword, are looked at and judged, and nothing else is. So it
does not wait for the other traces of a long file, and is told where `seg2 check` refuses
the file for something that was not read. For F, and with --as number, double or location,
the whole file is checked first.
",
        run: value::run,
    },
    Command {
        name: "new",
        words: "FILE --order low|high --slots N [--sheet SHEET]",
        does: "starts a file without traces",
        options: &[
            known("--order", "low|high", "which byte of a number comes first"),
            known("--slots", "N", "how many traces it can take, 1 to 16383"),
            known("--sheet", "SHEET", "the file's strings (without it: none)"),
        ],
        more: "
A file that is there already stays as it is. It is a shot file once a trace is added.
",
        run: write::new,
    },
    Command {
        name: "add",
        words: "FILE --sheet SHEET --code C --samples TEXT",
        does: "adds a trace",
        options: &[
            known(
                "--sheet",
                "SHEET",
                "the trace's strings (an empty file: none)",
            ),
            known(
                "--code",
                "C",
                "the format code: 1 and 2 fixed point of 16 and 32 bits,
3, 4 and 5 floating point of 20, 32 and 64 bits",
            ),
            known(
                "--samples",
                "TEXT",
                "samples, one a line: whole numbers, for codes 4 and 5
decimal numbers or bit patterns that start with 0x",
            ),
            known(
                "--wait",
                "SECONDS",
                "how long to wait for another addition to the same file
(without it: 60)",
            ),
        ],
        more: "
Additions to one file happen one at a time. The file stays as it was where a trace cannot
be added, where another program changes it meanwhile, and where this one is ended. A
write-protected file or folder is left alone. The sheets of all traces have a
CHANNEL_NUMBER, 1 to 32767, or none has: the first trace chooses.
",
        run: write::add,
    },
    Command {
        name: "explain",
        words: "NUMBER",
        does: "a refusal's number in plain words: the rule, and what to do",
        options: &[],
        more: "",
        run: explain::run,
    },
];

const BEHIND: &str = "
A sheet is a text file: on each line a keyword, a tab and a value, keywords in rising
order, lines of a NOTE last. RECEIVER_GEOMETRY and SOURCE_GEOMETRY may have several lines,
one directly behind the other. Where a file, a sheet or samples are read, - is standard
input. --name=value is --name value; behind -- stand no options. `seg2 COMMAND --help`
tells more of a command, `seg2 --version` the version.

Exit status: 0 done, and every file that was checked is accepted, with --lenient perhaps
leniently; 1 a file, a sheet or a sample was refused, or a keyword is not there; 2 something
cannot be read, written or understood. A file is checked whole before anything of it is
told, but for the text of a trace's value.
";

/// What --version prints.
pub fn version() -> String {
    format!("seg2 {}\n", seg2::VERSION)
}

impl Command {
    pub fn usage(&self) -> String {
        format!("seg2 {} {}", self.name, self.words)
    }

    /// The help of this command alone.
    pub fn help(&self) -> String {
        let options: String = self.options.iter().map(Known::lines).collect();
        format!(
            "{}\n\n  {}\n{options}{}",
            self.usage(),
            self.does,
            self.more
        )
    }

    /// Its lines among all commands.
    fn lines(&self) -> String {
        let usage = self.usage();
        let ends = [" |", " --"].map(|end| usage.find(end).unwrap_or(usage.len()));
        let named = &usage[..ends[0].min(ends[1])];
        let options: String = self.options.iter().map(Known::lines).collect();
        format!("  {named:<29} {}\n{options}", self.does)
    }
}

impl Known {
    fn lines(&self) -> String {
        let named = format!("{} {}", self.name, self.value);
        let mut lines = self.does.lines();
        let first = lines.next().unwrap_or("");
        let rest: String = lines.map(|line| format!("{:32}{line}\n", "")).collect();
        format!("      {named:<25} {first}\n{rest}")
    }
}

/// The command of a name.
pub fn command(name: &str) -> Option<&'static Command> {
    COMMANDS.iter().find(|command| command.name == name)
}

/// All commands.
pub fn all() -> String {
    let lines: String = COMMANDS.iter().map(Command::lines).collect();
    format!("seg2: checks, lists, reads and writes SEG-2 shot files\n\n{lines}{BEHIND}")
}

#[cfg(test)]
mod tests {
    use super::*;

    #[test]
    fn the_help_fits_a_terminal() {
        let helps = COMMANDS.iter().map(Command::help).chain([all()]);
        for help in helps {
            assert!(help.lines().all(|line| line.len() <= 100), "{help}");
        }
    }

    #[test]
    fn options_stand_under_their_command() {
        let add = command("add").expect("a command").help();
        assert!(add.starts_with("seg2 add FILE --sheet SHEET"), "{add}");
        assert!(add.contains("\n      --code C                  the format code"));
        assert!(add.contains("\n                                3, 4 and 5 floating"));
        assert!(
            all().contains("\n  seg2 add FILE                 adds a trace\n      --sheet SHEET")
        );
    }
}
