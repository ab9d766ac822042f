//! list: the blocks and strings of files.

use crate::files::{self, print, told_name};
use crate::json::{self, Object};
use crate::options::Options;
use crate::stop::{say_beside, Answer};
use crate::words::{Leniently, Told};
use seg2::{File, Pair, Refusal, Strings};
use std::ffi::OsStr;

/// By which rules a file is read.
#[derive(Clone, Copy)]
enum Rules {
    Strict,
    Lenient,
}

/// One listing for each file; the worst answer is the exit status.
pub fn run(given: &Options) -> Answer {
    let names = given.at_least_one()?;
    let rules = match given.has("--lenient") {
        true => Rules::Lenient,
        false => Rules::Strict,
    };
    let mut worst = 0;
    for name in names {
        let status = match files::shot(name) {
            Ok(bytes) if given.has("--json") => object(name, &bytes, rules)?,
            Ok(bytes) => lines(name, &bytes, rules, names.len() > 1)?,
            Err(stop) => {
                if given.has("--json") {
                    print((json::unread(name, stop.sentence()) + "\n").as_bytes())?;
                }
                stop.tell()
            }
        };
        worst = worst.max(status);
    }
    Ok(worst)
}

/// A file by some rules, or what is wrong with it.
fn open<'a>(name: &OsStr, bytes: &'a [u8], rules: Rules) -> Result<File<'a>, Box<Told>> {
    let told = match rules {
        Rules::Strict => match File::open(bytes) {
            Ok(file) => return Ok(file),
            Err(refusal) => Told::of_file_with_hint(name, bytes, &refusal),
        },
        Rules::Lenient => match File::open_lenient(bytes) {
            Ok(file) => return Ok(file),
            Err(refused) => Told::of_lenient(name, bytes, &refused),
        },
    };
    Err(Box::new(told))
}

/// Document 01's listing, for files up to the maximum; one of several has its name first. Of a
/// file that is read leniently alone, standard error says so.
fn lines(name: &OsStr, bytes: &[u8], rules: Rules, named: bool) -> Answer {
    let mut out = Vec::new();
    if named {
        out.extend(format!("FILE\t{}\n", told_name(name)).bytes());
    }
    match open(name, bytes, rules) {
        Ok(file) => {
            listing(&mut out, &file);
            let answer = print(&out)?;
            told_leniently(Leniently::of(name, &file).as_ref());
            Ok(answer)
        }
        Err(told) => {
            out.extend(refusal_line(&told.refusal).bytes());
            print(&out)?;
            Ok(told.stop().tell())
        }
    }
}

fn told_leniently(leniently: Option<&Leniently>) {
    if let Some(leniently) = leniently {
        say_beside(&leniently.sentence());
    }
}

/// "R, number, part (F for -1), place"
fn refusal_line(refusal: &Refusal) -> String {
    let part = match refusal.part {
        -1 => "F".to_string(),
        trace => trace.to_string(),
    };
    format!("R\t{}\t{part}\t{}\n", refusal.number, refusal.place)
}

/// "Order (low or high), N, M; part, keyword, value; trace, code, samples."
fn listing(out: &mut Vec<u8>, file: &File) {
    let (n, m) = (file.trace_count(), file.pointer_room());
    out.extend(format!("SEG2\t{}\t{n}\t{m}\n", order(file)).bytes());
    string_lines(out, file, "F", file.strings());
    for trace in file.traces() {
        let (index, code, samples) = (trace.index(), trace.code(), trace.sample_count());
        out.extend(format!("T\t{index}\t{code}\t{samples}\n").bytes());
        string_lines(out, file, &index.to_string(), trace.strings());
    }
}

/// The strings of a part, each line of a NOTE by itself. A keyword is listed as it counts: in
/// capitals, also where the file has it otherwise and was read leniently.
fn string_lines(out: &mut Vec<u8>, file: &File, part: &str, strings: Strings) {
    for (keyword, value) in strings {
        let keyword = keyword.to_ascii_uppercase();
        if keyword == b"NOTE" {
            for line in file.lines(value) {
                string_line(out, part, &keyword, line);
            }
        } else {
            string_line(out, part, &keyword, value);
        }
    }
}

fn order(file: &File) -> &'static str {
    if file.high_first() {
        "high"
    } else {
        "low"
    }
}

/// "A tab in a value prints as a space"
fn string_line(out: &mut Vec<u8>, part: &str, keyword: &[u8], line: &[u8]) {
    let untabbed = line.iter().map(|&c| if c == b'\t' { b' ' } else { c });
    out.extend(format!("S\t{part}\t").bytes());
    out.extend(keyword);
    out.push(b'\t');
    out.extend(untabbed);
    out.push(b'\n');
}

// ---- JSON

/// The same as one object.
fn object(name: &OsStr, bytes: &[u8], rules: Rules) -> Answer {
    let (status, said) = match open(name, bytes, rules) {
        Ok(file) => {
            let leniently = Leniently::of(name, &file);
            told_leniently(leniently.as_ref());
            let head = match rules {
                Rules::Strict => Object::of(name).field("accepted", true),
                Rules::Lenient => json::accepted_leniently(name, leniently.as_ref()),
            };
            (0, accepted(head, &file))
        }
        Err(told) => {
            let said = match rules {
                Rules::Strict => json::refused(name, &told),
                Rules::Lenient => json::refused_leniently(name, &told),
            };
            (told.stop().tell(), said)
        }
    };
    print((said + "\n").as_bytes())?;
    Ok(status)
}

fn accepted(head: Object, file: &File) -> String {
    let traces = file.traces().map(|trace| {
        let object = Object::new()
            .field("index", trace.index())
            .field("code", trace.code())
            .field("sample_count", trace.sample_count());
        object.row("strings", &objects(file, trace.strings())).end()
    });
    head.text("order", order(file))
        .field("pointer_room", file.pointer_room())
        .row("strings", &objects(file, file.strings()))
        .row("traces", &traces.collect::<Vec<String>>())
        .end()
}

fn objects(file: &File, strings: Strings) -> Vec<String> {
    strings.map(|pair| string(file, pair)).collect()
}

fn string(file: &File, (keyword, value): Pair) -> String {
    let keyword = keyword.to_ascii_uppercase();
    let string = Object::new()
        .bytes("keyword", &keyword)
        .bytes("value", value);
    if keyword != b"NOTE" {
        return string.end();
    }
    let lines: Vec<String> = file.lines(value).map(json::bytes).collect();
    string.row("lines", &lines).end()
}
