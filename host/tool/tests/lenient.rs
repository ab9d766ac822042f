//! Files of older recorders (document 02, §11), as `check --lenient` and `list --lenient` tell
//! them: what is forgiven, what is not, and what a plain check says of such a file.

mod common;

use common::{add, ended, run, text, tool, Folder};
use std::path::Path;

use seg2_reference as reference;
use seg2_reference::generate::{old_case, plain_file, Model, PlainTrace, Rng};
use seg2_reference::worked::{example, EXAMPLE_LISTED};

/// Low byte first, with these strings and traces, each with an end mark.
fn file_of(own: &[&[u8]], traces: &[&[&[u8]]]) -> Vec<u8> {
    let traces: Vec<_> = traces.iter().map(|t| PlainTrace::of_strings(t)).collect();
    plain_file(reference::Order::Low, own, &traces)
}

/// The example with some bytes changed: the file's keyword stands at 38, the trace's at 90.
fn changed(changes: &[(usize, &[u8])]) -> Vec<u8> {
    let mut bytes = example();
    for (at, new) in changes {
        bytes[*at..at + new.len()].copy_from_slice(new);
    }
    bytes
}

/// Lower-case letters in the trace's keyword.
fn lower() -> Vec<u8> {
    changed(&[(90, b"Stack")])
}

/// The trace's only string fills its area.
fn unmarked() -> Vec<u8> {
    changed(&[(88, b"\x0C\0STACK 111\0")])
}

/// Lower-case letters in the file's keyword, and no trace where the pointer leads.
fn broken() -> Vec<u8> {
    changed(&[(38, b"u"), (56, &[0])])
}

const SOUND: &[&[u8]] = &[b"STACK 1"];

// ---- check --lenient

#[test]
fn a_file_that_keeps_the_rules_is_accepted() {
    let folder = Folder::new("lenient-accepts");
    let shot = folder.keep("shot", example());
    let said = format!("{}: accepted\n", shot.display());
    assert_eq!(run!("check", "--lenient", shot), (0, said, "".into()));
    let json = format!(
        r#"{{"name":"{}","accepted":true,"lenient":false}}"#,
        shot.display()
    );
    let said = run!("check", "--lenient", "--json", shot);
    assert_eq!(said, (0, json + "\n", "".into()));
}

/// All lines but those of the bytes, which are counted.
fn told(out: &str) -> (Vec<&str>, usize) {
    let is_dump = |line: &&str| line.starts_with("     ");
    let (dump, lines): (Vec<&str>, Vec<&str>) = out.lines().partition(is_dump);
    (lines, dump.len())
}

/// Each habit by itself: the strict refusal, what was found, what is forgiven, and how often.
#[test]
fn each_habit_is_told_with_the_strict_refusal() {
    let folder = Folder::new("lenient-habits");
    let cases: &[(Vec<u8>, &str, &str, &str, &str)] = &[
        (
            lower(),
            "refused (16) in trace 0 at byte 88",
            "byte 91 is `t` (74h), a small letter, in the keyword `Stack`",
            "lower-case letters in the keyword `Stack`, which counts as `STACK`",
            "1 keyword with lower-case letters",
        ),
        (
            unmarked(),
            "refused (14) in trace 0 at byte 100",
            "the strings end at byte 100 without an end mark",
            "the list of strings ends without its mark, where no byte is left for it",
            "1 list of strings without an end mark",
        ),
        (
            file_of(&[b"B 1", b"A 2", b"B 3"], &[SOUND]),
            "refused (17) in the file at byte 42",
            "`A` follows `B`, and comes before it",
            "the order of the keywords",
            "1 keyword out of order or repeated",
        ),
        (
            file_of(&[], &[&[b"STACK 1", b"STACK 2", b"NOTE", b"Z"]]),
            "refused (17) in trace 0 at byte 82",
            "`STACK` is there twice",
            "that the keyword `STACK` is there again",
            "2 keywords out of order or repeated",
        ),
        (
            file_of(&[], &[SOUND, &[b"CHANNEL_NUMBER 5"], SOUND]),
            "refused (34) in trace 1 at byte 124",
            "its CHANNEL_NUMBER is `5`, and trace 0 has none",
            "the channel numbers, which are not looked at",
            "1 channel number bad or missing",
        ),
    ];
    for (bytes, refusal, found, forgiven, all) in cases {
        let shot = folder.keep("shot", bytes);
        let (status, out, error) = run!("check", "--lenient", shot);
        assert_eq!((status, error.as_str()), (0, ""), "{out}");
        let (lines, dump) = told(&out);
        assert_eq!(lines[0], format!("{}: accepted leniently", shot.display()));
        let strict = seg2::check(bytes, bytes.len()).expect_err("a refusal");
        assert!(strict.to_string().starts_with(refusal), "{strict}");
        assert_eq!(lines[1], format!("    by the strict rules: {strict}"));
        assert_eq!(lines[2], format!("    found: {found}"));
        assert_eq!(lines[3], format!("    forgiven: {forgiven}"));
        assert_eq!(lines[4], format!("    in all: {all}"));
        assert_eq!(lines[5], "    but: no trace can be added to such a file");
        let more = format!("    more: ./seg2 explain {}", strict.number);
        assert_eq!(lines[6..], [more]);
        // the bytes around the place are shown, the place in brackets
        assert!((2..=3).contains(&dump), "{out}");
        assert!(
            out.contains(&format!("[{:02X}]", bytes[strict.place])),
            "{out}"
        );
    }
}

#[test]
fn all_habits_of_a_file_are_counted() {
    let folder = Folder::new("lenient-all");
    let old: &[&[u8]] = &[b"stack 1", b"Delay 0", b"note a\nb", b"DELAY 1"];
    let bytes = file_of(
        &[b"units METERS", b"company WE"],
        &[SOUND, old, &[b"CHANNEL_NUMBER x"]],
    );
    let shot = folder.keep("shot", bytes);
    let (status, out, _) = run!("check", "--lenient", shot);
    assert_eq!(status, 0);
    let all = "\n    in all: 5 keywords with lower-case letters, 3 keywords out of order or repeated, 1 channel number bad or missing\n";
    assert!(out.contains(all), "{out}");
    let json = run!("check", "--lenient", "--json", shot).1;
    let counts = r#""forgiven":{"lower_case":5,"order":3,"end_marks":0,"channel_numbers":1}}"#;
    assert!(json.trim_end().ends_with(counts), "{json}");
}

#[test]
fn what_is_not_forgiven_is_refused_as_ever() {
    let folder = Folder::new("lenient-refuses");
    // the same by both: told as by a plain check, word by word
    for bytes in [
        changed(&[(0, &[0])]),
        changed(&[(56, &[0])]),
        changed(&[(97, b"A")]),
        changed(&[(96, &[0xE9])]),
        example()[..104].to_vec(),
    ] {
        let shot = folder.keep("shot", bytes);
        let plain = run!("check", shot);
        assert_eq!((plain.0, run!("check", "--lenient", shot)), (1, plain));
    }
}

#[test]
fn another_strict_refusal_is_told_too() {
    let folder = Folder::new("lenient-both");
    let bytes = broken();
    let shot = folder.keep("shot", &bytes);
    let (status, out, error) = run!("check", "--lenient", shot);
    assert_eq!((status, error.as_str()), (1, ""));
    let lines: Vec<&str> = out.lines().collect();
    let both = seg2::check_lenient(&bytes, bytes.len()).expect_err("a refusal");
    assert_eq!((both.refusal.number, both.strict.number), (9, 16));
    assert_eq!(lines[0], format!("{}: {}", shot.display(), both.refusal));
    let found = "    found: 00h 44h stand there, and a trace block starts with 22h 44h";
    assert_eq!(lines[1], found);
    assert_eq!(
        lines[2],
        "    to do: copy the file again as binary, not as text"
    );
    let rest = &lines[lines.len() - 3..];
    assert_eq!(rest[0], format!("    by the strict rules: {}", both.strict));
    let found = "        found: byte 38 is `u` (75h), a small letter, in the keyword `uNITS`";
    assert_eq!(rest[1..], [found, "    more: ./seg2 explain 9"]);
    let json = run!("check", "--lenient", "--json", shot).1;
    let start = format!(
        r#"{{"name":"{}","accepted":false,"lenient":false,"number":9,"part":0,"place":56,"#,
        shot.display()
    );
    assert!(json.starts_with(&start), "{json}");
    let strict = r#","strict":{"number":16,"part":-1,"place":36,"text":"a forbidden character in a keyword or value, or an empty keyword","found":"byte 38 is `u` (75h), a small letter, in the keyword `uNITS`","to_do":""#;
    assert!(json.contains(strict) && json.ends_with("\"}}\n"), "{json}");
    // where the rows are the same, the second is not told again
    let shot = folder.keep("shot", changed(&[(56, &[0])]));
    let json = run!("check", "--lenient", "--json", shot).1;
    assert!(!json.contains("strict"), "{json}");
}

#[test]
fn a_small_letter_is_not_told_to_be_the_fault() {
    let folder = Folder::new("lenient-fault");
    let shot = folder.keep("shot", changed(&[(90, b"st\xE9ck")]));
    let out = run!("check", "--lenient", shot).1;
    let found = "\n    found: byte 92 is E9h, no ASCII character, in the keyword `st\\xe9ck`\n";
    assert!(out.contains(found), "{out}");
    let out = run!("check", shot).1;
    let found = "\n    found: byte 90 is `s` (73h), a small letter, in the keyword `st\\xe9ck`\n";
    assert!(out.contains(found), "{out}");
    // one byte behind the last string
    let shot = folder.keep("shot", changed(&[(88, b"\x0B\0STACK 11\0")]));
    let out = run!("check", "--lenient", shot).1;
    let found =
        "\n    found: byte 99 is left behind the last string, and an end mark has 2 bytes\n";
    assert!(out.contains(found), "{out}");
}

#[test]
fn the_last_line_counts_them_apart() {
    let folder = Folder::new("lenient-summary");
    let good = folder.keep("good", example());
    let (one, two) = (folder.keep("one", lower()), folder.keep("two", unmarked()));
    let bad = folder.keep("bad", broken());
    let missing = folder.path("missing");
    let (status, out, error) = run!("check", "--lenient", good, one, two);
    assert_eq!((status, error.as_str()), (0, ""));
    let last = "\n3 files: 1 accepted, 2 accepted leniently, 0 refused\n";
    assert!(out.ends_with(last), "{out}");
    let (status, out, _) = run!("check", "--lenient", good, one, bad, two, good);
    assert_eq!(status, 1);
    let last = "\n5 files: 2 accepted, 2 accepted leniently, 1 refused\n";
    assert!(out.ends_with(last), "{out}");
    let (status, out, _) = run!("check", one, missing, "--lenient");
    assert_eq!(status, 2);
    let last = "\n2 files: 0 accepted, 1 accepted leniently, 0 refused, 1 not read\n";
    assert!(out.ends_with(last), "{out}");
    // without the option there is no such thing
    let (status, out, _) = run!("check", good, one, two, bad);
    assert_eq!((status, out.contains("leniently")), (1, false));
    assert!(out.ends_with("\n4 files: 1 accepted, 3 refused\n"), "{out}");
    // a folder is its files
    let (status, out, _) = run!("check", "--lenient", folder.0);
    assert_eq!(status, 1);
    let last = "\n4 files: 1 accepted, 2 accepted leniently, 1 refused\n";
    assert!(out.ends_with(last), "{out}");
}

#[test]
fn quiet_tells_of_refused_files_alone() {
    let folder = Folder::new("lenient-quiet");
    let (good, old) = (folder.keep("good", example()), folder.keep("old", lower()));
    let bad = folder.keep("bad", broken());
    let none = (0, String::new(), String::new());
    assert_eq!(run!("check", "--lenient", "--quiet", good, old), none);
    assert_eq!(run!("check", "--lenient", "--quiet", "--json", old), none);
    let (status, out, _) = run!("check", "--quiet", "--lenient", old, bad);
    assert_eq!((status, out.matches("refused (9)").count()), (1, 1));
    assert!(
        !out.contains("leniently") && !out.contains("files:"),
        "{out}"
    );
}

#[test]
fn json_has_the_strict_refusal_and_the_counts() {
    let folder = Folder::new("lenient-json");
    let shot = folder.keep("old", lower());
    let said = format!(
        r#"{{"name":"{}","accepted":true,"lenient":true,"strict":{{"number":16,"part":0,"place":88,"text":"a forbidden character in a keyword or value, or an empty keyword","found":"byte 91 is `t` (74h), a small letter, in the keyword `Stack`","to_do":"set the keyword in capitals and the value in plain letters where the shot is recorded, and save it again"}},"forgiven":{{"lower_case":1,"order":0,"end_marks":0,"channel_numbers":0}}}}"#,
        shot.display()
    );
    let out = run!("check", "--lenient", "--json", shot);
    assert_eq!(out, (0, said + "\n", "".into()));
}

/// Standard input, as every file.
#[test]
fn standard_input_is_read_leniently() {
    let folder = Folder::new("lenient-input");
    let shot = std::fs::File::open(folder.keep("shot", lower())).expect("the file");
    let out = tool()
        .args(["check", "--lenient", "-"])
        .stdin(shot)
        .output();
    let (status, out, _) = ended(out.expect("the tool runs"));
    assert_eq!(status, 0);
    assert!(out.starts_with("-: accepted leniently\n"), "{out}");
}

// ---- the hint

const HINT: &str = "; or use --lenient, which reads this file as it is";

/// The line on what to do.
fn to_do(said: &str) -> &str {
    let line = said.lines().find(|line| line.starts_with("    to do: "));
    line.expect("something to do")
}

#[test]
fn a_plain_check_hints_where_that_helps() {
    let folder = Folder::new("lenient-hint");
    let hinted = |path: &Path| {
        let [check, list] = [run!("check", path).1, run!("list", path).2];
        assert_eq!(to_do(&check), to_do(&list));
        let json = run!("check", "--json", path).1;
        assert_eq!(json.contains(HINT), check.contains(HINT));
        to_do(&check).ends_with(HINT)
    };
    for bytes in [
        lower(),
        unmarked(),
        file_of(&[b"B 1", b"A 2"], &[SOUND]),
        file_of(&[], &[SOUND, &[b"CHANNEL_NUMBER 5"]]),
    ] {
        assert!(hinted(&folder.keep("old", bytes)));
    }
    for bytes in [
        broken(),
        changed(&[(0, &[0])]),
        changed(&[(96, &[0xE9])]),
        changed(&[(88, &[2])]),
        file_of(&[b"B 1", b"A 2", b"C \x01"], &[SOUND]),
    ] {
        assert!(!hinted(&folder.keep("bad", bytes)));
    }
    // commands that cannot read leniently do not say so
    let old = folder.keep("old", lower());
    for said in [
        run!("samples", old, "0").2,
        run!("value", old, "0", "STACK").2,
        run!("value", old, "F", "UNITS").2,
        add(
            &old,
            &folder.keep("none", ""),
            "1",
            &folder.keep("samples", "1\n"),
        )
        .2,
    ] {
        assert!(
            said.contains("refused (16)") && !said.contains(HINT),
            "{said}"
        );
    }
}

#[test]
fn no_trace_is_added_to_an_old_file() {
    let folder = Folder::new("lenient-add");
    let (sheet, samples) = (folder.keep("none", ""), folder.keep("samples", "1\n"));
    for bytes in [lower(), unmarked(), file_of(&[b"B 1", b"A 2"], &[SOUND])] {
        let old = folder.keep("old", &bytes);
        assert_eq!(run!("check", "--lenient", old).0, 0);
        assert_eq!(add(&old, &sheet, "1", &samples).0, 1);
        assert_eq!(std::fs::read(&old).expect("the file"), bytes);
    }
}

// ---- list --lenient

#[test]
fn a_listing_has_keywords_as_they_count() {
    let folder = Folder::new("lenient-list");
    let old: &[&[u8]] = &[
        b"stack 4",
        b"Delay\t0\t1",
        b"note WET\n\n COLD",
        b"STACK 5",
        b"NOTE x",
    ];
    let shot = folder.keep("shot", file_of(&[b"units METERS", b"Company WE"], &[old]));
    let (status, out, error) = run!("list", "--lenient", shot);
    assert_eq!(status, 0);
    let lines = "SEG2\tlow\t1\t4\n\
        S\tF\tUNITS\tMETERS\nS\tF\tCOMPANY\tWE\n\
        T\t0\t1\t0\n\
        S\t0\tSTACK\t4\nS\t0\tDELAY\t0 1\n\
        S\t0\tNOTE\tWET\nS\t0\tNOTE\t\nS\t0\tNOTE\t COLD\n\
        S\t0\tSTACK\t5\nS\t0\tNOTE\tx\n";
    assert_eq!(out, lines);
    let said = format!(
        "seg2: {} is read leniently: by the strict rules it is refused (16) in the file at byte 36: \
         a forbidden character in a keyword or value, or an empty keyword; \
         forgiven: lower-case letters in the keyword `units`, which counts as `UNITS`; \
         `./seg2 check --lenient` tells more\n",
        shot.display()
    );
    assert_eq!(error, said);
    // the same of other habits
    for (bytes, number) in [(unmarked(), 14), (file_of(&[b"B", b"A"], &[SOUND]), 17)] {
        let shot = folder.keep("shot", bytes);
        let (status, out, error) = run!("list", "--lenient", shot);
        assert_eq!((status, error.lines().count()), (0, 1));
        assert!(out.starts_with("SEG2\tlow\t1\t4\n"), "{out}");
        assert!(
            error.contains(&format!("it is refused ({number}) in ")),
            "{error}"
        );
    }
}

#[test]
fn a_listing_of_a_file_that_keeps_the_rules_is_the_plain_one() {
    let folder = Folder::new("lenient-same");
    let shot = folder.keep("shot", example());
    let listed = run!("list", "--lenient", shot);
    assert_eq!(listed, (0, EXAMPLE_LISTED.into(), "".into()));
    let mut rng = Rng::new(421);
    for _ in 0..50 {
        let laid = Model::random(&mut rng).lay();
        let shot = folder.keep("shot", &laid.buffer[..laid.length]);
        assert_eq!(run!("list", "--lenient", shot), run!("list", shot));
    }
}

#[test]
fn a_listing_of_what_is_not_forgiven_is_one_line() {
    let folder = Folder::new("lenient-list-refused");
    let shot = folder.keep("shot", broken());
    let (status, out, error) = run!("list", "--lenient", shot);
    assert_eq!((status, out.as_str()), (1, "R\t9\t0\t56\n"));
    // in the words of check
    let said = run!("check", "--lenient", shot).1;
    assert_eq!(error, format!("seg2: {said}"));
    // the strict listing has the strict row
    assert_eq!(run!("list", shot).1, "R\t16\tF\t36\n");
}

#[test]
fn several_listings_say_which_is_which() {
    let folder = Folder::new("lenient-several");
    let (good, old) = (folder.keep("good", example()), folder.keep("old", lower()));
    let bad = folder.keep("bad", broken());
    let (status, out, error) = run!("list", "--lenient", old, good, bad);
    assert_eq!(status, 1);
    let [good, old, bad] = [good, old, bad].map(|path| path.display().to_string());
    let lines = format!(
        "FILE\t{old}\n{EXAMPLE_LISTED}FILE\t{good}\n{EXAMPLE_LISTED}FILE\t{bad}\nR\t9\t0\t56\n"
    );
    assert_eq!(out, lines);
    assert!(
        error.starts_with(&format!("seg2: {old} is read leniently: ")),
        "{error}"
    );
    assert!(
        error.contains(&format!("\nseg2: {bad}: refused (9)")),
        "{error}"
    );
    assert!(!error.contains(&good), "{error}");
}

#[test]
fn a_listing_in_json_has_the_strict_refusal() {
    let folder = Folder::new("lenient-list-json");
    let shot = folder.keep("shot", file_of(&[], &[&[b"note a\nb", b"stack 1"]]));
    let (status, out, error) = run!("list", "--lenient", "--json", shot);
    assert_eq!((status, error.lines().count()), (0, 1));
    let start = format!(
        r#"{{"name":"{}","accepted":true,"lenient":true,"strict":{{"number":16,"part":0,"place":72,"#,
        shot.display()
    );
    assert!(out.starts_with(&start), "{out}");
    let rest = r#","order":"low","pointer_room":4,"strings":[],"traces":[{"index":0,"code":1,"sample_count":0,"strings":[{"keyword":"NOTE","value":"a\u000ab","lines":["a","b"]},{"keyword":"STACK","value":"1"}]}]}"#;
    assert!(out.trim_end().ends_with(rest), "{out}");
    let good = folder.keep("good", example());
    let out = run!("list", "--lenient", "--json", good).1;
    assert!(
        out.contains(r#","accepted":true,"lenient":false,"order":"low","#),
        "{out}"
    );
    let bad = folder.keep("bad", broken());
    let (status, out, error) = run!("list", "--lenient", "--json", bad);
    assert_eq!(
        (status, &out),
        (1, &run!("check", "--lenient", "--json", bad).1)
    );
    assert!(
        error.starts_with(&format!("seg2: {}: refused (9)", bad.display())),
        "{error}"
    );
}

/// The listing that the reference's lenient strings make, or the line of its refusal.
fn listing(bytes: &[u8]) -> Vec<u8> {
    let file = match reference::lenient_check(bytes, bytes.len()).answer {
        Ok(file) => file,
        Err(refusal) => {
            let part = match refusal.part {
                -1 => "F".to_string(),
                part => part.to_string(),
            };
            return format!("R\t{}\t{part}\t{}\n", refusal.number, refusal.place).into();
        }
    };
    let order = match file.order {
        reference::Order::Low => "low",
        reference::Order::High => "high",
    };
    let mut out = format!("SEG2\t{order}\t{}\t{}\n", file.n, file.m).into_bytes();
    let mut strings = |part: String, head: String, strings: &[reference::StringPlace]| {
        out.extend(head.bytes());
        for string in strings {
            let keyword = bytes[string.keyword.clone()].to_ascii_uppercase();
            let value = &bytes[string.value.clone()];
            let lines = match &keyword[..] {
                b"NOTE" => reference::note_lines(&file, value),
                _ => vec![value],
            };
            for line in lines {
                out.extend(format!("S\t{part}\t").bytes());
                out.extend(&keyword);
                out.push(b'\t');
                out.extend(line.iter().map(|&c| if c == b'\t' { b' ' } else { c }));
                out.push(b'\n');
            }
        }
    };
    strings("F".into(), String::new(), &file.strings);
    for (k, trace) in file.traces.iter().enumerate() {
        let head = format!("T\t{k}\t{}\t{}\n", trace.code, trace.s);
        strings(k.to_string(), head, &trace.strings);
    }
    out
}

#[test]
fn a_lenient_listing_is_the_references() {
    let folder = Folder::new("lenient-reference");
    let mut rng = Rng::new(422);
    let (mut old, mut refused) = (0, 0);
    for _ in 0..300 {
        let case = old_case(&mut rng);
        let bytes = case.buffer.get(..case.length).unwrap_or(&case.buffer);
        if bytes.is_empty() {
            continue;
        }
        let shot = folder.keep("shot", bytes);
        let out = tool().args(["list", "--lenient"]).arg(&shot).output();
        let out = out.expect("the tool runs");
        assert_eq!(text(&out.stdout), text(&listing(bytes)), "{}", case.name);
        let status = out.status.code().expect("an exit status");
        let both = reference::lenient_check(bytes, bytes.len());
        assert_eq!(status, i32::from(both.answer.is_err()));
        // standard error has something exactly where the strict rules refuse the file
        assert_eq!(out.stderr.is_empty(), both.strict.is_none());
        match both.answer {
            Ok(_) => old += usize::from(both.strict.is_some()),
            Err(_) => refused += 1,
        }
        let (checked, said, _) = run!("check", "--lenient", shot);
        assert_eq!(checked, status);
        let leniently = status == 0 && both.strict.is_some();
        assert_eq!(said.contains(": accepted leniently\n"), leniently);
    }
    assert!(old > 50 && refused > 50, "{old} {refused}");
}

// ---- words

#[test]
fn the_forgiven_rows_are_explained_so() {
    for number in seg2::numbers() {
        let (_, out, _) = run!("explain", number.to_string());
        let forgiven = matches!(number, 14 | 16 | 17 | 34);
        assert_eq!(out.contains("`./seg2 check --lenient`"), forgiven, "{out}");
    }
}

#[test]
fn help_tells_of_it() {
    for verb in ["check", "list"] {
        let out = run!(verb, "--help").1;
        assert!(out.contains("\n      --lenient  "), "{out}");
        assert!(out.contains("\n--lenient "), "{out}");
    }
    assert_eq!(run!("help").1.matches("--lenient  ").count(), 2);
    for words in [["check", "--lenient=yes"], ["list", "--lenient=1"]] {
        let (status, _, error) =
            ended(tool().args(words).arg("a").output().expect("the tool runs"));
        assert_eq!(status, 2);
        assert!(error.contains("--lenient takes no value"), "{error}");
    }
    for verb in ["samples", "value", "add"] {
        let (status, _, error) = run!(verb, "--lenient", "a");
        assert_eq!(status, 2);
        assert!(
            error.contains("--lenient is no option of this command"),
            "{error}"
        );
    }
}
