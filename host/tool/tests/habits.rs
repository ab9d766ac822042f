//! What people expect of any command: options in every spelling, help and version, several
//! files and folders, pipes, standard input, JSON and CSV.

mod common;

use common::{ended, run, sentence, text, tool, Ended, Folder};
use std::io::{BufRead, BufReader, Read, Write};
use std::os::unix::ffi::OsStrExt;
use std::path::PathBuf;
use std::process::{Command, Stdio};
use std::time::{Duration, Instant};

use seg2::{Builder, File, Order};
use seg2_reference::generate::{Model, Rng};
use seg2_reference::worked::{example, EXAMPLE_LISTED};

const VERBS: [&str; 7] = ["check", "list", "samples", "value", "new", "add", "explain"];

/// Runs the tool with bytes on standard input.
fn fed(words: &[&str], input: &[u8]) -> Ended {
    let mut command = tool();
    command.args(words).stdin(Stdio::piped());
    command.stdout(Stdio::piped()).stderr(Stdio::piped());
    let mut child = command.spawn().expect("the tool runs");
    let mut stdin = child.stdin.take().expect("standard input");
    stdin.write_all(input).expect("written");
    drop(stdin);
    ended(child.wait_with_output().expect("an end"))
}

// ---- options

#[test]
fn the_version_is_the_headers() {
    let header = include_str!("../../../include/seg2.h");
    let number = |name: &str| {
        let word = format!("#define SEG2_VERSION_{name} ");
        header
            .lines()
            .find_map(|line| line.strip_prefix(&word))
            .expect("a number")
    };
    let version = format!(
        "seg2 {}.{}.{}\n",
        number("MAJOR"),
        number("MINOR"),
        number("PATCH")
    );
    for word in ["--version", "-V", "version"] {
        assert_eq!(run!(word), (0, version.clone(), "".into()));
    }
}

#[test]
fn every_command_has_its_help() {
    for verb in VERBS {
        for help in ["--help", "-h"] {
            let (status, out, error) = run!(verb, "no such file", help);
            assert_eq!((status, error.as_str()), (0, ""));
            assert!(out.starts_with(&format!("seg2 {verb} ")), "{out}");
        }
        assert_eq!(run!("help", verb), run!(verb, "--help"));
    }
    sentence(run!("help", "chekc"), "`chekc` is no command");
}

#[test]
fn options_are_taken_in_every_spelling() {
    let folder = Folder::new("spelling");
    let shot = folder.path("shot");
    let (status, _, error) = run!("new", "--order=low", shot, "--slots=2", "--sheet=/dev/null");
    assert_eq!((status, error.as_str()), (0, ""));
    let samples = folder.keep("samples=1", "1\n");
    let given = format!("--samples={}", samples.display());
    let words = ["add", "--code=1", "--sheet", "/dev/null", &given, "--"];
    let out = tool().args(words).arg(&shot).output().expect("the tool");
    assert_eq!(ended(out).0, 0);
    // behind -- stands a name, whatever it looks like
    let dashed = folder.keep("--json", example());
    let out = tool()
        .args(["check", "--quiet", "--", "--json"])
        .current_dir(&folder.0)
        .output();
    assert_eq!(ended(out.expect("the tool")), (0, "".into(), "".into()));
    assert!(dashed.exists());
    for (words, says) in [
        ("check --json=yes a", "--json takes no value"),
        (
            "check -q a",
            "-q is no option of this command; where it is a name, put -- before it",
        ),
        ("check --quite a", "--quite is no option of this command"),
        (
            "new a --order=low --order high --slots 1",
            "--order is given twice",
        ),
        ("new a --slots 1 --order", "--order needs a value"),
        ("new a --slots 1 --order=", "`` is no byte order"),
        (
            "add a --sheet b --code 1 --samples c --wait soon",
            "`soon` is no number of seconds",
        ),
        (
            "samples a 0 --all",
            "usage: seg2 samples FILE TRACE | FILE --all",
        ),
        ("value a F", "usage: seg2 value FILE PART KEYWORD"),
        (
            "value a x K",
            "`x` is no part: F for the file, else a trace's number",
        ),
        ("value a -2 K", "`-2` is no part"),
    ] {
        let out = tool().args(words.split_whitespace()).output();
        sentence(ended(out.expect("the tool runs")), says);
    }
}

// ---- several files and folders

#[test]
fn a_folder_is_every_file_in_it_in_sorted_order() {
    let folder = Folder::new("folder");
    for inner in ["b", "b/deep", "empty"] {
        std::fs::create_dir(folder.path(inner)).expect("a folder");
    }
    for name in ["c.sg2", "a.sg2", "b/2.sg2", "b/10.sg2", "b/deep/1.sg2"] {
        folder.keep(name, example());
    }
    // a hidden file of an addition that is going on is nobody's shot, nor is a way round
    folder.keep(".seg2-1-0.new", "half");
    std::os::unix::fs::symlink(&folder.0, folder.path("b/round")).expect("a link");
    std::os::unix::fs::symlink(folder.path("c.sg2"), folder.path("d.sg2")).expect("a link");
    let out = tool().args(["check", "."]).current_dir(&folder.0).output();
    let (status, out, error) = ended(out.expect("the tool runs"));
    assert_eq!((status, error.as_str()), (0, ""));
    let names = ["a", "b/10", "b/2", "b/deep/1", "c", "d"];
    let mut said = names
        .map(|name| format!("./{name}.sg2: accepted\n"))
        .concat();
    said += "6 files: 6 accepted, 0 refused\n";
    assert_eq!(out, said);
    sentence(run!("check", folder.path("empty")), "empty has no files");
}

#[test]
fn quiet_tells_of_refused_files_alone() {
    let folder = Folder::new("quiet");
    let good = folder.keep("good", example());
    let bad = folder.keep("bad", "no shot file");
    assert_eq!(
        run!("check", "--quiet", good, good),
        (0, "".into(), "".into())
    );
    let (status, out, _) = run!("check", good, bad, "--quiet");
    assert_eq!(status, 1);
    assert!(
        out.starts_with(&format!("{}: refused (1)", bad.display())),
        "{out}"
    );
    assert!(out.ends_with("    more: ./seg2 explain 1\n"), "{out}");
}

#[test]
fn list_takes_several_files() {
    let folder = Folder::new("list-several");
    let good = folder.keep("good", example());
    let bad = folder.keep("bad", "no shot file");
    let missing = folder.path("missing");
    let (status, out, error) = run!("list", good, bad, missing, good);
    assert_eq!(status, 2);
    let (good, bad) = (good.display(), bad.display());
    let listed = format!("FILE\t{good}\n{EXAMPLE_LISTED}");
    assert_eq!(out, format!("{listed}FILE\t{bad}\nR\t1\tF\t0\n{listed}"));
    assert!(error.contains("bad: refused (1)"), "{error}");
    assert!(error.contains("missing cannot be read"), "{error}");
}

// ---- pipes and standard input

#[test]
fn nothing_is_read_once_the_reader_is_gone() {
    let folder = Folder::new("gone");
    // many answers, so that they do not all fit the pipe
    for i in 0..3000 {
        folder.keep(&format!("{i:04}-{}", "x".repeat(80)), example());
    }
    // a pipe at the end: if the tool came as far, it would wait for its other end
    let pipe = folder.path("zzzz");
    assert!(Command::new("mkfifo")
        .arg(&pipe)
        .status()
        .expect("mkfifo")
        .success());
    let mut command = tool();
    command.arg("check").arg(&folder.0).arg(&pipe);
    command.stdout(Stdio::piped()).stderr(Stdio::piped());
    let mut child = command.spawn().expect("the tool runs");
    let mut lines = BufReader::new(child.stdout.take().expect("its output"));
    let mut first = String::new();
    lines.read_line(&mut first).expect("a line");
    assert!(first.ends_with(": accepted\n"), "{first}");
    drop(lines);
    let began = Instant::now();
    let status = loop {
        if let Some(status) = child.try_wait().expect("a child") {
            break status;
        }
        if began.elapsed() > Duration::from_secs(60) {
            let _ = child.kill();
            panic!("it reads on");
        }
        std::thread::sleep(Duration::from_millis(10));
    };
    let mut error = String::new();
    let stderr = child.stderr.take().expect("its errors");
    BufReader::new(stderr)
        .read_to_string(&mut error)
        .expect("text");
    assert_eq!((status.code(), error.as_str()), (Some(2), ""));
}

#[test]
fn standard_input_is_read_where_that_makes_sense() {
    let folder = Folder::new("input-all");
    assert_eq!(fed(&["list", "-"], &example()).1, EXAMPLE_LISTED);
    assert_eq!(fed(&["samples", "-", "0"], &example()).1, "1\n-1\n256\n");
    assert_eq!(fed(&["value", "-", "F", "UNITS"], &example()).1, "METERS\n");
    assert_eq!(fed(&["value", "-", "0", "STACK"], &example()).1, "1\n");
    let shot = folder.path("shot").display().to_string();
    let words = [
        "new", &shot, "--order", "low", "--slots", "1", "--sheet", "-",
    ];
    assert_eq!(fed(&words, b"UNITS\tMETERS\n").0, 0);
    let sheet = folder.keep("sheet", "STACK\t1\n").display().to_string();
    let words = [
        "add",
        &shot,
        "--sheet",
        &sheet,
        "--code",
        "1",
        "--samples",
        "-",
    ];
    assert_eq!(fed(&words, b"1\n-1\n256\n").0, 0);
    assert_eq!(std::fs::read(&shot).expect("the file"), example());
    // a bad line of standard input is told as its own
    let words = [
        "new", &shot, "--order", "low", "--slots", "1", "--sheet", "-",
    ];
    let (status, _, error) = fed(&words, b"units\tMETERS\n");
    assert_eq!(status, 1);
    assert!(error.starts_with("seg2: -: refused (25)"), "{error}");
    let once = "- is standard input, which is read once: give it once";
    let words = [
        "add",
        &shot,
        "--sheet",
        "-",
        "--code",
        "1",
        "--samples",
        "-",
    ];
    sentence(fed(&words, b""), once);
    let (status, _, error) = fed(&["check", "-", "-"], &example());
    assert_eq!((status, error.contains(once)), (2, true), "{error}");
}

#[test]
fn standard_input_is_no_file_to_be_written() {
    let folder = Folder::new("input-never");
    for words in [
        "new - --order low --slots 1",
        "add - --sheet /dev/null --code 1 --samples /dev/null",
    ] {
        let mut command = tool();
        command.args(words.split(' ')).current_dir(&folder.0);
        let out = command.stdin(Stdio::null()).output();
        let says = "- is standard input, and a file is written: give its name";
        sentence(ended(out.expect("the tool runs")), says);
    }
    assert_eq!(folder.names(), [""; 0]);
}

#[test]
fn a_full_disk_behind_the_errors_changes_no_status() {
    let full = std::fs::OpenOptions::new().write(true).open("/dev/full");
    let full = full.expect("a device that is always full");
    let status = tool().args(["check", "no such file"]).stderr(full).status();
    assert_eq!(status.expect("the tool runs").code(), Some(2));
}

// ---- value

#[test]
fn a_value_is_printed_as_it_was_asked_for() {
    let folder = Folder::new("value");
    let sheet = b"CLIENT\t\nDATUM\t-2.30E6\nUNITS\tMETERS\nNOTE\tWET\nNOTE\t COLD\n";
    let mut shot = Builder::start(Order::High, 1, sheet).expect("a start");
    let sheet = b"DELAY\t-0.020\nRECEIVER_LOCATION\t01.250  -2.50E-3 3 \n";
    shot.add_integers(sheet, 1, &[]).expect("a trace");
    let shot = folder.keep("shot", shot.bytes());
    for (part, keyword, kind, said) in [
        ("F", "UNITS", "text", "METERS\n"),
        ("-1", "UNITS", "text", "METERS\n"),
        ("F", "CLIENT", "text", "\n"),
        ("F", "NOTE", "text", "WET\n COLD\n"),
        ("0", "DELAY", "text", "-0.020\n"),
        ("0", "DELAY", "number", "-0.020\n"),
        ("0", "DELAY", "double", "-0.02\n"),
        ("F", "DATUM", "number", "-2.30E6\n"),
        ("F", "DATUM", "double", "-2300000.0\n"),
        ("0", "DELAY", "location", "-0.020\n"),
        ("0", "RECEIVER_LOCATION", "location", "1.250 -2.50E-3 3\n"),
    ] {
        let out = run!("value", shot, part, keyword, "--as", kind);
        assert_eq!(out, (0, said.into(), "".into()), "{keyword} as {kind}");
    }
    let (status, out, error) = run!("value", shot, "0", "UNITS");
    assert_eq!((status, out.as_str()), (1, ""));
    let says = format!("seg2: {}: trace 0 has no keyword UNITS\n", shot.display());
    assert_eq!(error, says);
    let (_, _, error) = run!("value", shot, "F", "units");
    assert!(
        error.ends_with("the file has no keyword units\n"),
        "{error}"
    );
    let kinds = "`metres` is no kind of value: text, number, double or location";
    sentence(run!("value", shot, "F", "UNITS", "--as", "metres"), kinds);
}

/// Three traces, of which the second has a bad code; and where that stands.
fn second_is_broken(folder: &Folder) -> (PathBuf, usize) {
    let mut shot = Builder::start(Order::High, 3, b"UNITS\tMETERS\n").expect("a start");
    for stack in ["1", "", "3"] {
        let sheet = format!("DELAY\t0\nSTACK\t{stack}\nNOTE\tWET\nNOTE\t\nNOTE\t COLD\n");
        shot.add_integers(sheet.as_bytes(), 1, &[1, 2])
            .expect("a trace");
    }
    let mut bytes = shot.finish();
    let file = File::open(&bytes).expect("a file");
    let code = file.trace(1).expect("a trace").start() + 12;
    bytes[code] = 9;
    (folder.keep("broken", bytes), code)
}

/// Document 02, §5: what is wrong in another trace does not keep a trace's value from being
/// told.
#[test]
fn a_traces_value_is_told_without_a_check_of_the_file() {
    let folder = Folder::new("quick");
    let (shot, code) = second_is_broken(&folder);
    let refused = format!("refused (12) in trace 1 at byte {code}: ");
    let (status, out, _) = run!("check", shot);
    assert_eq!((status, out.contains(&refused)), (1, true), "{out}");
    for (part, keyword, said) in [
        ("0", "STACK", "1\n"),
        ("2", "STACK", "3\n"),
        ("2", "DELAY", "0\n"),
        ("2", "NOTE", "WET\n\n COLD\n"),
    ] {
        let wanted = (0, said.to_string(), String::new());
        assert_eq!(run!("value", shot, part, keyword), wanted, "{keyword}");
        let as_text = run!("value", shot, part, keyword, "--as", "text");
        assert_eq!(as_text, wanted, "{keyword}");
    }
    for keyword in ["UNITS", "stack", "A", "NOTE 1", "\u{e9}"] {
        let said = format!(
            "seg2: {}: trace 2 has no keyword {keyword}\n",
            shot.display()
        );
        assert_eq!(run!("value", shot, "2", keyword), (1, String::new(), said));
    }
    for index in ["3", "4294967296"] {
        let (status, out, error) = run!("value", shot, index, "STACK");
        assert_eq!((status, out.as_str()), (1, ""));
        let found = format!("trace {index} was asked for, and the file has 3 traces, 0 to 2");
        assert!(error.contains("refused (18): "), "{error}");
        assert!(error.contains(&found), "{error}");
    }
    // the broken trace itself; and the file's own values and numbers, behind the check
    for words in [
        &["1", "STACK"][..],
        &["1", "NOTE"],
        &["F", "UNITS"],
        &["-1", "NOTE"],
        &["0", "STACK", "--as", "number"],
        &["0", "STACK", "--as", "double"],
        &["0", "STACK", "--as", "location"],
    ] {
        let out = tool().arg("value").arg(&shot).args(words).output();
        let (status, out, error) = ended(out.expect("the tool runs"));
        assert_eq!((status, out.as_str()), (1, ""), "{words:?}");
        assert!(
            error.contains(&refused) && error.contains("[09]"),
            "{error}"
        );
    }
}

#[test]
fn a_note_that_is_missing_or_empty_is_told_apart() {
    let folder = Folder::new("quick-note");
    let mut shot = Builder::start(Order::Low, 2, b"").expect("a start");
    shot.add_integers(b"NOTE\t\n", 1, &[]).expect("a trace");
    shot.add_integers(b"", 1, &[]).expect("a trace");
    let shot = folder.keep("shot", shot.bytes());
    let empty = (0, "\n".to_string(), String::new());
    assert_eq!(run!("value", shot, "0", "NOTE"), empty);
    let (status, out, error) = run!("value", shot, "1", "NOTE");
    assert_eq!((status, out.as_str()), (1, ""));
    assert!(
        error.ends_with(": trace 1 has no keyword NOTE\n"),
        "{error}"
    );
}

/// Document 02, §4: "A surveyor typed 0.250 and the app shows 0.25, another precision to
/// him." A text that is no number, as one with a comma, is printed as it stands too.
#[test]
fn numbers_are_printed_with_their_own_decimals() {
    let folder = Folder::new("decimals");
    let texts = [
        ("A", "0.250", "0.250"),
        ("B", "12", "12"),
        ("C", "2.50E-3", "2.50E-3"),
        ("D", "0.00", "0.00"),
        ("E", "-007.50E+0", ""),
        ("F", "0,250", ""),
        ("G", "007.50", "7.50"),
        ("H", "-0.0E05", "0.0E5"),
    ];
    let lines: String = texts
        .map(|(key, text, _)| format!("{key}\t{text}\n"))
        .concat();
    let mut shot = Builder::start(Order::Low, 1, lines.as_bytes()).expect("a start");
    shot.add_integers(lines.as_bytes(), 1, &[])
        .expect("a trace");
    let shot = folder.keep("shot", shot.bytes());
    let (_, listed, _) = run!("list", shot);
    let (_, json, _) = run!("list", shot, "--json");
    for (key, text, number) in texts {
        for part in ["F", "0"] {
            let line = format!("\nS\t{part}\t{key}\t{text}\n");
            assert!(listed.contains(&line), "{listed}");
            let said = (0, format!("{text}\n"), "".into());
            assert_eq!(run!("value", shot, part, key), said);
            let (status, out, _) = run!("value", shot, part, key, "--as", "number");
            match number {
                "" => assert_eq!((status, out.as_str()), (1, ""), "{text}"),
                _ => assert_eq!((status, out), (0, format!("{number}\n"))),
            }
        }
        let value = format!(r#"{{"keyword":"{key}","value":"{text}"}}"#);
        assert_eq!(json.matches(&value).count(), 2, "{json}");
    }
}

// ---- CSV and JSON

#[test]
fn all_samples_are_a_table() {
    let folder = Folder::new("csv");
    let mut shot = Builder::start(Order::Low, 4, b"").expect("a start");
    shot.add_integers(b"", 1, &[1, -1, 256]).expect("code 1");
    shot.add_integers(b"", 2, &[]).expect("none");
    shot.add_bits(b"", 4, &[u64::from(0.1_f32.to_bits())])
        .expect("code 4");
    shot.add_bits(b"", 5, &[f64::NAN.to_bits(), 1.5_f64.to_bits()])
        .expect("code 5");
    let shot = folder.keep("shot", shot.bytes());
    let (status, out, error) = run!("samples", shot, "--all");
    assert_eq!((status, error.as_str()), (0, ""));
    assert_eq!(out, "0,1,2,3\n1,,0.1,nan\n-1,,,1.5\n256,,,\n");
    let mut shot = Builder::start(Order::Low, 2, b"").expect("a start");
    shot.add_bits(b"", 4, &[1, 2]).expect("code 4");
    shot.add_bits(b"", 5, &[3]).expect("code 5");
    let shot = folder.keep("bits", shot.bytes());
    let bits = "0,1\n0x00000001,0x0000000000000003\n0x00000002,\n";
    assert_eq!(run!("samples", "--all", "--bits", shot).1, bits);
}

#[test]
fn a_long_table_is_whole() {
    let folder = Folder::new("csv-long");
    let mut shot = Builder::start(Order::Low, 2, b"").expect("a start");
    let samples: Vec<i32> = (0..100_000).collect();
    for _ in 0..2 {
        shot.add_integers(b"", 2, &samples).expect("a trace");
    }
    let (_, out, _) = run!("samples", folder.keep("shot", shot.bytes()), "--all");
    let rows: String = samples.iter().map(|s| format!("{s},{s}\n")).collect();
    assert!(out == format!("0,1\n{rows}"));
}

#[test]
fn check_tells_json() {
    let folder = Folder::new("json-check");
    let good = folder.keep("good \"1\"", example());
    let mut bytes = example();
    bytes[90] = b's';
    let bad = folder.keep("bad", bytes);
    let missing = folder.path("missing");
    let (status, out, error) = run!("check", "--json", good, bad, missing);
    assert_eq!((status, error.lines().count()), (2, 1));
    let lines: Vec<&str> = out.lines().collect();
    let path = folder.0.display();
    assert_eq!(
        lines[0],
        format!(r#"{{"name":"{path}/good \"1\"","accepted":true}}"#)
    );
    let start = format!(
        r#"{{"name":"{path}/bad","accepted":false,"number":16,"part":0,"place":88,"text":"a forbidden character in a keyword or value, or an empty keyword","found":"byte 90 is `s` (73h), a small letter, in the keyword `sTACK`","to_do":""#
    );
    assert!(
        lines[1].starts_with(&start) && lines[1].ends_with("\"}"),
        "{out}"
    );
    let unread = format!(
        r#"{{"name":"{path}/missing","accepted":false,"error":"{path}/missing cannot be read: there is no such file or folder"}}"#
    );
    assert_eq!(lines[2..], [unread]);
}

#[test]
fn list_tells_json() {
    let folder = Folder::new("json-list");
    let note = b"UNITS\tMETERS\nNOTE\tWET \"9\"\nNOTE\t\n";
    let mut shot = Builder::start(Order::High, 2, note).expect("a start");
    shot.add_integers(b"STACK\t1\\2\n", 1, &[1, -1, 256])
        .expect("a trace");
    shot.add_bits(b"", 5, &[0]).expect("a trace");
    let shot = folder.keep("shot", shot.bytes());
    let (status, out, error) = run!("list", "--json", shot);
    assert_eq!((status, error.as_str()), (0, ""));
    let name = shot.display();
    let strings = r#"[{"keyword":"UNITS","value":"METERS"},{"keyword":"NOTE","value":"WET \"9\"\u000a","lines":["WET \"9\"",""]}]"#;
    let traces = r#"[{"index":0,"code":1,"sample_count":3,"strings":[{"keyword":"STACK","value":"1\\2"}]},{"index":1,"code":5,"sample_count":1,"strings":[]}]"#;
    let said = format!("{{\"name\":\"{name}\",\"accepted\":true,\"order\":\"high\",\"pointer_room\":8,\"strings\":{strings},\"traces\":{traces}}}\n");
    assert_eq!(out, said);
    let bad = folder.keep("bad", "no shot file");
    let (status, out, error) = run!("list", "--json", bad);
    assert_eq!(status, 1);
    assert!(
        out.contains(r#""accepted":false,"number":1,"part":-1,"place":0,"#),
        "{out}"
    );
    assert!(error.contains("refused (1)"), "{error}");
}

/// What a line of Python makes of our output: a reader of JSON that we did not write. `./test` installs it.
fn python(script: &str, input: &[u8]) -> String {
    let mut command = Command::new("python3");
    command.args(["-c", script]);
    command.stdin(Stdio::piped()).stdout(Stdio::piped());
    let mut child = command.spawn().expect("python3");
    let mut stdin = child.stdin.take().expect("its input");
    std::thread::scope(|scope| {
        // while its output is read: a full pipe would hold both
        scope.spawn(move || stdin.write_all(input).expect("written"));
        text(&child.wait_with_output().expect("an end").stdout)
    })
}

#[test]
fn names_in_json_are_read_by_others() {
    let folder = Folder::new("json-names");
    let name = std::ffi::OsStr::from_bytes(b"shot \xE9\x01\"\\");
    let shot = folder.0.join(name);
    std::fs::write(&shot, example()).expect("a file");
    let plain = folder.keep("é€", example());
    let out = tool()
        .args(["check", "--json"])
        .arg(&shot)
        .arg(&plain)
        .output();
    let script = "import json,sys\nfor line in sys.stdin: print(ascii(json.loads(line)['name'].split('/')[-1]))";
    let said = python(script, &out.expect("the tool runs").stdout);
    let expected = "'shot \\xe9\\x01\"\\\\'\n'\\xe9\\u20ac'\n";
    assert_eq!(said, expected);
}

/// The listing of document 01, made again from the JSON.
const AGAIN: &str = r#"
import json, sys
def strings(part, row):
    for s in row:
        for value in s.get("lines", [s["value"]]):
            print("S", part, s["keyword"], value.replace("\t", " "), sep="\t")
for line in sys.stdin:
    f = json.loads(line)
    print("FILE", f["name"], sep="\t")
    print("SEG2", f["order"], len(f["traces"]), f["pointer_room"], sep="\t")
    strings("F", f["strings"])
    for t in f["traces"]:
        print("T", t["index"], t["code"], t["sample_count"], sep="\t")
        strings(t["index"], t["strings"])
"#;

#[test]
fn the_json_of_a_listing_holds_the_listing() {
    let folder = Folder::new("json-same");
    let mut rng = Rng::new(405);
    let (mut lines, mut json) = (tool(), tool());
    lines.arg("list");
    json.args(["list", "--json"]);
    for i in 0..100 {
        let laid = Model::random(&mut rng).lay();
        let shot = folder.keep(&i.to_string(), &laid.buffer[..laid.length]);
        lines.arg(&shot);
        json.arg(&shot);
    }
    let lines = ended(lines.output().expect("the tool runs"));
    assert_eq!((lines.0, lines.2.as_str()), (0, ""));
    let json = json.output().expect("the tool runs").stdout;
    assert_eq!(python(AGAIN, &json), lines.1);
}
