//! The tool as the office and the crew run it: output, exit status, and a clear sentence
//! where something cannot be done.

mod common;

use common::{add, ended, run, sentence, text, tool, Folder};
use std::path::Path;
use std::process::{Command, Output, Stdio};

use seg2::{Builder, Order};
use seg2_reference::generate::{damaged, mutated, Model, Rng, WAYS};
use seg2_reference::worked::{example, EXAMPLE_LISTED};

// ---- words

#[test]
fn what_is_not_understood_is_status_2() {
    for (words, says) in [
        ("", "seg2 check FILE.."),
        ("chekc a", "`chekc` is no command"),
        ("check", "usage: seg2 check FILE.."),
        ("list", "usage: seg2 list FILE"),
        ("list --bits a", "--bits is no option of this command"),
        ("samples a", "usage: seg2 samples FILE TRACE"),
        ("samples a first", "`first` is no trace's number"),
        ("samples a -1", "`-1` is no trace's number"),
        ("samples a 0 --bits --bits", "--bits is given twice"),
        ("new a", "--order is missing"),
        ("new a --order low", "--slots is missing"),
        ("new a --order", "--order needs a value"),
        ("new --order low --slots 1", "usage: seg2 new FILE"),
        ("new a --order up --slots 1", "`up` is no byte order"),
        (
            "new a --order low --slots few",
            "`few` is no number of pointer slots",
        ),
        ("add a --code 1 --samples b", "--sheet is missing"),
        ("add a --sheet b --samples c", "--code is missing"),
        ("add a --sheet b --code 1", "--samples is missing"),
        (
            "add a --sheet b --code 6 --samples c",
            "`6` is no format code",
        ),
        (
            "add a --sheet b --code x --samples c",
            "`x` is no format code",
        ),
        ("explain", "usage: seg2 explain NUMBER"),
        ("explain 0", "the table has no number 0"),
        ("explain 99", "the table has no number 99"),
        ("explain x", "`x` is no refusal's number"),
    ] {
        let out = tool().args(words.split_whitespace()).output();
        sentence(ended(out.expect("the tool runs")), says);
    }
}

#[test]
fn help_is_printed() {
    for word in ["help", "--help", "-h"] {
        let (status, out, error) = run!(word);
        assert_eq!((status, error.as_str()), (0, ""));
        for verb in ["check", "list", "samples", "new", "add", "explain"] {
            assert!(out.contains(&format!("seg2 {verb} ")), "{verb}");
        }
    }
}

#[test]
fn files_that_cannot_be_read_get_a_sentence() {
    let folder = Folder::new("unreadable");
    let missing = folder.path("missing");
    let empty = folder.keep("empty", b"");
    // a sparse file of the maximum and one byte takes no room
    let long = folder.path("long");
    let file = std::fs::File::create(&long).expect("a file");
    file.set_len(67_108_865).expect("a long file");
    let cases = [
        (missing.clone(), "cannot be read: there is no such file"),
        (empty, "is empty: a SEG-2 file has at least 32 bytes"),
        (
            long,
            "is too long: a SEG-2 file has at most 67,108,864 bytes",
        ),
    ];
    let sheet = folder.keep("sheet", b"");
    let samples = folder.keep("samples", b"1\n");
    for (path, says) in cases {
        sentence(run!("check", path), says);
        sentence(run!("list", path), says);
        sentence(run!("samples", path, "0"), says);
        sentence(add(&path, &sheet, "1", &samples), says);
    }
    let shot = folder.keep("shot", example());
    let no_file = "cannot be read: there is no such file";
    sentence(add(&shot, &missing, "1", &samples), no_file);
    sentence(add(&shot, &sheet, "1", &missing), no_file);
    sentence(add(&shot, &folder.0, "1", &samples), "is a folder");
    let no_file_either = "is a folder, not a file";
    sentence(add(&folder.0, &sheet, "1", &samples), no_file_either);
    sentence(run!("list", folder.0), no_file_either);
    sentence(run!("samples", folder.0, "0"), no_file_either);
    let new = folder.path("new");
    sentence(
        run!("new", new, "--order", "low", "--slots", "1", "--sheet", missing),
        no_file,
    );
    assert!(!new.exists());
}

#[test]
fn output_that_cannot_be_written_is_status_2() {
    let folder = Folder::new("full");
    let shot = folder.keep("shot", example());
    let full = std::fs::OpenOptions::new().write(true).open("/dev/full");
    let full = full.expect("a device that is always full");
    let out = tool().arg("list").arg(shot).stdout(full).output();
    let (status, _, error) = ended(out.expect("the tool runs"));
    assert_eq!(status, 2);
    assert!(error.contains("the output cannot be written"), "{error}");
}

// ---- check

#[test]
fn check_accepts() {
    let folder = Folder::new("accepts");
    let shot = folder.keep("shot", example());
    let (status, out, error) = run!("check", shot);
    assert_eq!((status, error.as_str()), (0, ""));
    assert_eq!(out, format!("{}: accepted\n", shot.display()));
}

#[test]
fn check_names_rule_part_and_byte_and_shows_the_bytes() {
    let folder = Folder::new("refuses");
    let mut bytes = example();
    bytes[90] = b's'; // a lower-case letter in trace 0's keyword
    let shot = folder.keep("shot", bytes);
    let (status, out, error) = run!("check", shot);
    assert_eq!((status, error.as_str()), (1, ""));
    let lines: Vec<&str> = out.lines().collect();
    let said = "refused (16) in trace 0 at byte 88: a forbidden character in a keyword or value, or an empty keyword";
    assert_eq!(lines[0], format!("{}: {said}", shot.display()));
    let found = "    found: byte 90 is `s` (73h), a small letter, in the keyword `sTACK`";
    assert_eq!(lines[1], found);
    assert!(lines[2].starts_with("    to do: set the keyword in capitals"));
    assert!(lines[3].starts_with("        64  "), "{out}");
    assert!(lines[4].starts_with("        80  "), "{out}");
    assert!(lines[4].contains("[0A]"), "{out}");
    assert!(lines[4].ends_with("..........sTACK "), "{out}");
    assert!(lines[5].starts_with("        96  "), "{out}");
    assert_eq!(lines[6..], ["    more: ./seg2 explain 16"]);
}

#[test]
fn check_goes_on_and_the_worst_is_the_status() {
    let folder = Folder::new("worst");
    let good = folder.keep("good", example());
    let bad = folder.keep("bad", b"no such thing");
    let missing = folder.path("missing");
    let (status, out, _) = run!("check", good, bad, good);
    assert_eq!((status, out.matches(": accepted\n").count()), (1, 2));
    assert!(out.contains("refused (1) in the file: "), "{out}");
    assert!(out.ends_with("\n3 files: 2 accepted, 1 refused\n"), "{out}");
    let (status, out, error) = run!("check", bad, missing, good);
    assert_eq!((status, error.lines().count()), (2, 1));
    let last = "\n3 files: 1 accepted, 1 refused, 1 not read\n";
    assert!(out.ends_with(last), "{out}");
}

#[test]
fn check_of_many_files_is_quiet_where_no_terminal_looks_on() {
    let folder = Folder::new("many");
    let mut command = tool();
    command.arg("check");
    for i in 0..30 {
        command.arg(folder.keep(&format!("shot-{i:02}"), example()));
    }
    let (status, out, error) = ended(command.output().expect("the tool runs"));
    assert_eq!((status, out.lines().count(), error.as_str()), (0, 31, ""));
}

#[test]
fn check_of_many_files_shows_a_terminal_how_far_it_is() {
    let folder = Folder::new("terminal");
    let shot = folder.keep("shot", example());
    // `script` runs a command on a terminal of its own
    let words = format!("{} check", env!("CARGO_BIN_EXE_seg2"))
        + &format!(" {}", shot.display()).repeat(21);
    let out = Command::new("script")
        .args(["-qec", &words, "/dev/null"])
        .stdin(Stdio::null())
        .output();
    let Ok(out) = out else {
        println!("no command `script` here: the progress was not tried on a terminal");
        return;
    };
    let (status, said, _) = ended(out);
    assert_eq!(status, 0);
    for done in 0..21 {
        assert!(
            said.contains(&format!("{done} of 21 files checked\r")),
            "{said}"
        );
    }
    // each answer starts a line that is free
    assert_eq!(
        said.matches(&format!("   \r{}: accepted", shot.display()))
            .count(),
        21,
        "{said}"
    );
}

#[test]
fn check_reads_standard_input() {
    let folder = Folder::new("input");
    let shot = std::fs::File::open(folder.keep("shot", example())).expect("the file");
    let out = tool().args(["check", "-"]).stdin(shot).output();
    assert_eq!(
        ended(out.expect("the tool runs")),
        (0, "-: accepted\n".into(), "".into())
    );
}

#[test]
fn every_damage_is_told_without_a_crash() {
    let folder = Folder::new("damage");
    let mut rng = Rng::new(301);
    for way in WAYS {
        let case = damaged(&mut rng, way);
        let bytes = case.buffer.get(..case.length).unwrap_or(&case.buffer);
        if bytes.is_empty() {
            continue;
        }
        let shot = folder.keep("shot", bytes);
        let (status, out, _) = run!("check", shot);
        let expected = seg2::check(bytes, bytes.len());
        assert_eq!(status, i32::from(expected.is_err()), "{}", way.name);
        if let Err(refusal) = expected {
            assert!(out.contains(&refusal.to_string()), "{}: {out}", way.name);
        }
    }
}

// ---- list

fn listed(path: &Path) -> (i32, Vec<u8>) {
    let out = tool()
        .arg("list")
        .arg(path)
        .output()
        .expect("the tool runs");
    (out.status.code().expect("an exit status"), out.stdout)
}

#[test]
fn list_prints_document_01s_example() {
    let folder = Folder::new("list");
    let shot = folder.keep("shot", example());
    assert_eq!(run!("list", shot), (0, EXAMPLE_LISTED.into(), "".into()));
}

#[test]
fn list_prints_one_line_for_a_refusal_and_says_it_in_words() {
    let folder = Folder::new("list-refused");
    let image = Builder::start(Order::Low, 1, b"").expect("a start");
    let shot = folder.keep("shot", image.bytes());
    let (status, out, error) = run!("list", shot);
    assert_eq!((status, out.as_str()), (1, "R\t5\tF\t6\n"));
    assert!(
        error.contains("refused (5) in the file at byte 6: "),
        "{error}"
    );
}

#[test]
fn list_is_the_references_listing() {
    let folder = Folder::new("list-same");
    let mut rng = Rng::new(302);
    for i in 0..300 {
        let (bytes, length) = match i % 3 {
            0 => mutated(&mut rng),
            _ => {
                let laid = Model::random(&mut rng).lay();
                (laid.buffer, laid.length)
            }
        };
        let bytes = bytes.get(..length).unwrap_or(&bytes);
        if bytes.is_empty() || bytes.len() > seg2_reference::LISTING_MAXIMUM {
            continue;
        }
        let (status, lines) = listed(&folder.keep("shot", bytes));
        let expected = seg2_reference::listing(bytes);
        assert_eq!(text(&lines), text(&expected));
        assert_eq!(status, i32::from(expected.starts_with(b"R\t")));
    }
}

#[test]
fn list_takes_large_files_and_is_quick() {
    let folder = Folder::new("list-large");
    let sheet: String = (0..15)
        .map(|i| format!("KEY_{i:02}\tVALUE {i}\n"))
        .collect();
    let mut shot = Builder::start(Order::High, 2000, b"UNITS\tMETERS\n").expect("a start");
    let mut expected = String::from("SEG2\thigh\t2000\t8000\nS\tF\tUNITS\tMETERS\n");
    for i in 0..2000 {
        let added = shot.add_integers(sheet.as_bytes(), 2, &[i; 500]);
        added.expect("a trace");
        expected += &format!("T\t{i}\t2\t500\n");
        for line in sheet.lines() {
            expected += &format!("S\t{i}\t{line}\n");
        }
    }
    let began = std::time::Instant::now();
    let (status, lines) = listed(&folder.keep("shot", shot.bytes()));
    assert_eq!((status, lines == expected.as_bytes()), (0, true));
    // a check for each of its 30,000 strings would take a minute
    assert!(began.elapsed().as_secs() < 10, "{:?}", began.elapsed());
}

// ---- samples

#[test]
fn samples_are_printed_one_a_line() {
    let folder = Folder::new("samples");
    let mut shot = Builder::start(Order::Low, 5, b"").expect("a start");
    shot.add_integers(b"", 1, &[1, -1, 256]).expect("code 1");
    shot.add_integers(b"", 2, &[i32::MIN, i32::MAX])
        .expect("code 2");
    shot.add_integers(b"", 3, &[100_000, -32_769, 0, 1])
        .expect("code 3");
    let floats = [
        0.1_f32,
        -0.0,
        1e38,
        f32::INFINITY,
        f32::NEG_INFINITY,
        f32::NAN,
        1e-45,
    ];
    shot.add_bits(b"", 4, &floats.map(|f| f.to_bits().into()))
        .expect("code 4");
    let doubles = [0.1_f64, 1.0, -1e300, f64::INFINITY, f64::NAN];
    shot.add_bits(b"", 5, &doubles.map(f64::to_bits))
        .expect("code 5");
    let shot = folder.keep("shot", shot.bytes());
    let of = |trace: &str| {
        let (status, out, error) = run!("samples", shot, trace);
        assert_eq!((status, error.as_str()), (0, ""));
        out.lines().map(String::from).collect::<Vec<_>>()
    };
    assert_eq!(of("0"), ["1", "-1", "256"]);
    assert_eq!(of("1"), ["-2147483648", "2147483647"]);
    assert_eq!(of("2"), ["100000", "-32768", "0", "1"]);
    assert_eq!(
        of("3"),
        ["0.1", "-0.0", "1e38", "inf", "-inf", "nan", "1e-45"]
    );
    assert_eq!(of("4"), ["0.1", "1.0", "-1e300", "inf", "nan"]);
    let bits = run!("samples", shot, "3", "--bits").1;
    assert!(bits.starts_with("0x3dcccccd\n0x80000000\n"), "{bits}");
    let bits = run!("samples", "--bits", shot, "4").1;
    assert!(
        bits.starts_with("0x3fb999999999999a\n0x3ff0000000000000\n"),
        "{bits}"
    );
}

#[test]
fn samples_that_are_not_there_are_refused() {
    let folder = Folder::new("samples-refused");
    let shot = folder.keep("shot", example());
    let (status, out, error) = run!("samples", shot, "1");
    assert_eq!((status, out.as_str()), (1, ""));
    assert!(
        error.contains("refused (18): the file has no such part"),
        "{error}"
    );
    let (status, _, error) = run!("samples", shot, "0", "--bits");
    assert_eq!(status, 1);
    assert!(error.contains("refused (33): "), "{error}");
    let mut bytes = example();
    bytes[2] = 2;
    let (status, _, error) = run!("samples", folder.keep("bad", bytes), "0");
    assert_eq!(status, 1);
    assert!(
        error.contains("refused (3) in the file at byte 2") && error.contains("[02]"),
        "{error}"
    );
}

// ---- new and add

#[test]
fn a_file_is_started_and_traces_are_added() {
    let folder = Folder::new("write");
    let shot = folder.path("shot");
    let units = folder.keep("units", "UNITS\tMETERS\n");
    let stack = folder.keep("stack", "STACK\t1\n");
    let samples = folder.keep("samples", "1\n-1\r\n 256 \n");
    let (status, out, error) =
        run!("new", shot, "--order", "low", "--slots", "1", "--sheet", units);
    assert_eq!((status, error.as_str()), (0, ""));
    assert!(
        out.contains("started with 1 pointer slots, 56 bytes"),
        "{out}"
    );
    let (status, out, error) = add(&shot, &stack, "1", &samples);
    assert_eq!((status, error.as_str()), (0, ""));
    assert!(out.ends_with("trace 0 added, now 108 bytes\n"), "{out}");
    assert_eq!(std::fs::read(&shot).expect("the file"), example());
    assert_eq!(run!("list", shot).1, EXAMPLE_LISTED);
    // no slot is left; the file stays, and nothing is left beside it
    let (status, out, error) = add(&shot, &stack, "1", &samples);
    assert_eq!((status, out.as_str()), (1, ""));
    assert!(
        error.contains("refused (24): no trace slot is free"),
        "{error}"
    );
    assert_eq!(std::fs::read(&shot).expect("the file"), example());
    assert_eq!(folder.names(), ["samples", "shot", "stack", "units"]);
}

/// A crew with several phones per group: its lines in any order, put in order as `explain`
/// says, are written and listed in the order of the phones.
#[test]
fn several_receivers_are_written_and_listed() {
    let folder = Folder::new("receivers");
    let phones = ["10 0 0", "2 0 0", "-6 0 0", "-14 0 0", "2 0 0", "10 0 0"];
    let lines = phones.map(|phone| format!("RECEIVER_GEOMETRY\t{phone}\n"));
    let given = [
        "STACK\t4\n",
        &lines.concat(),
        "DELAY\t0\n",
        "RECEIVER\tVERTICAL_GEOPHONE 6\n",
    ];
    let given = folder.keep("given", given.concat());
    let (shot, samples) = (folder.path("shot"), folder.keep("samples", "1\n-1\n"));
    assert_eq!(run!("new", shot, "--order", "high", "--slots", "2").0, 0);
    let (status, _, error) = add(&shot, &given, "1", &samples);
    assert_eq!(status, 1);
    let line = "line 2, `RECEIVER_GEOMETRY\\t10 0 0`: `RECEIVER_GEOMETRY` follows `STACK`, and comes before it";
    assert!(
        error.contains("refused (26) at byte 8 of the sheet: "),
        "{error}"
    );
    assert!(
        error.contains("(only RECEIVER_GEOMETRY, SOURCE_GEOMETRY and NOTE may have several lines)"),
        "{error}"
    );
    assert!(error.contains(line), "{error}");
    let told = run!("explain", "26").1;
    let (_, rest) = told.split_once("as `LC_ALL=C ").expect("a command");
    let (words, _) = rest.split_once('`').expect("its end");
    let mut words = words.split(' ');
    let mut sort = std::process::Command::new(words.next().expect("a program"));
    let sorted = sort.args(words).arg(&given).env("LC_ALL", "C").output();
    let sheet = folder.keep("sheet", sorted.expect("sort runs").stdout);
    let (status, _, error) = add(&shot, &sheet, "1", &samples);
    assert_eq!((status, error.as_str()), (0, ""));
    let strings: String = phones
        .map(|phone| format!("S\t0\tRECEIVER_GEOMETRY\t{phone}\n"))
        .concat();
    let listed = run!("list", shot).1;
    let wanted = format!("S\t0\tRECEIVER\tVERTICAL_GEOPHONE 6\n{strings}S\t0\tSTACK\t4\n");
    assert!(listed.ends_with(&wanted), "{listed}");
    let (status, out, _) = run!("value", shot, "0", "RECEIVER_GEOMETRY");
    assert_eq!((status, out.as_str()), (0, "10 0 0\n"));
    let json = run!("list", "--json", shot).1;
    assert_eq!(json.matches("\"RECEIVER_GEOMETRY\"").count(), 6, "{json}");
}

#[test]
fn what_samples_prints_add_reads() {
    let folder = Folder::new("again");
    let shot = folder.path("shot");
    let none = folder.keep("none", "");
    assert_eq!(run!("new", shot, "--order", "high", "--slots", "4").0, 0);
    let floats = folder.keep("floats", "0.1\n-0.0\ninf\n-inf\n1e-45\n0x7f800001\n");
    let doubles = folder.keep("doubles", "0.1\n-1e300\n0x7ff0000000000001\n5e-324\n");
    assert_eq!(add(&shot, &none, "4", &floats).0, 0);
    assert_eq!(add(&shot, &none, "5", &doubles).0, 0);
    let said = run!("samples", shot, "0").1;
    assert_eq!(said, "0.1\n-0.0\ninf\n-inf\n1e-45\nnan\n");
    let bits = run!("samples", shot, "0", "--bits").1;
    assert!(bits.ends_with("0x00000001\n0x7f800001\n"), "{bits}");
    assert_eq!(run!("samples", shot, "1").1, "0.1\n-1e300\nnan\n5e-324\n");
    // patterns go round whole, and no samples at all are a trace too
    for (from, to, code) in [("0", "2", "4"), ("1", "3", "5")] {
        let bits = run!("samples", shot, from, "--bits").1;
        let given = folder.keep("bits", &bits);
        assert_eq!(add(&shot, &none, code, &given).0, 0);
        assert_eq!(run!("samples", shot, to, "--bits").1, bits);
    }
    assert_eq!(run!("check", shot).0, 0);
}

#[test]
fn new_leaves_a_file_that_is_there() {
    let folder = Folder::new("new-there");
    let shot = folder.keep("shot", example());
    sentence(
        run!("new", shot, "--order", "low", "--slots", "1"),
        "cannot be written: it is there already",
    );
    assert_eq!(std::fs::read(&shot).expect("the file"), example());
    let nowhere = folder.path("no/such/folder/shot");
    sentence(
        run!("new", nowhere, "--order", "low", "--slots", "1"),
        "cannot be written: there is no such",
    );
}

#[test]
fn new_is_refused_by_the_rules() {
    let folder = Folder::new("new-refused");
    let shot = folder.path("shot");
    for slots in ["0", "16384", "4294967295"] {
        let (status, out, error) = run!("new", shot, "--order", "low", "--slots", slots);
        assert_eq!((status, out.as_str()), (1, ""));
        assert!(error.contains("refused (31): "), "{error}");
    }
    let sheet = folder.keep("sheet", "A\t1\nB 2\n");
    let (status, _, error) = run!("new", shot, "--order", "low", "--slots", "1", "--sheet", sheet);
    assert_eq!(status, 1);
    assert!(
        error.contains("refused (25) at byte 4 of the sheet"),
        "{error}"
    );
    assert!(
        error.contains("found: line 2, `B 2`: it has no tab"),
        "{error}"
    );
    assert!(!shot.exists());
}

#[test]
fn add_is_refused_by_the_rules_and_leaves_the_file() {
    let folder = Folder::new("add-refused");
    let mut image = Builder::start(Order::Low, 9, b"").expect("a start");
    image.add_integers(b"", 1, &[1]).expect("a trace");
    let before = image.finish();
    let shot = folder.keep("shot", &before);
    let none = folder.keep("none", "");
    let refused = |code: &str, samples: &str, sheet: &Path, says: &str| {
        let samples = folder.keep("samples", samples);
        let (status, out, error) = add(&shot, sheet, code, &samples);
        assert_eq!((status, out.as_str()), (1, ""), "{error}");
        assert!(error.contains(says), "{error}");
        assert_eq!(std::fs::read(&shot).expect("the file"), before);
    };
    refused("1", "1\n2\n40000\n", &none, "refused (29) at sample 2: ");
    refused(
        "1",
        "1\n2\n40000\n",
        &none,
        "found: line 3 is `40000`, for code 1",
    );
    refused("3", "1\n2\n", &none, "refused (28): ");
    refused("4", "0x100000000\n", &none, "refused (29) at sample 0: ");
    let order = folder.keep("order", "B\t1\nA\t1\n");
    refused("1", "1\n", &order, "refused (26) at byte 4 of the sheet: ");
    let windows = folder.keep("windows", "A\t1\r\n");
    refused("1", "1\n", &windows, "0Dh");
    // a file that breaks a rule gets no trace, and its place is shown
    let mut broken = before.clone();
    broken[8] = 3;
    let broken = folder.keep("broken", &broken);
    let samples = folder.keep("samples", "1\n");
    let (status, _, error) = add(&broken, &none, "1", &samples);
    assert_eq!(status, 1);
    assert!(
        error.contains("refused (6) in the file at byte 8") && error.contains("[03]"),
        "{error}"
    );
}

#[test]
fn samples_that_are_no_numbers_get_a_sentence() {
    let folder = Folder::new("no-numbers");
    let shot = folder.keep(
        "shot",
        Builder::start(Order::Low, 9, b"").expect("a start").bytes(),
    );
    let none = folder.keep("none", "");
    for (code, samples, says) in [
        (
            "1",
            "1\n1.5\n",
            "line 2 of the samples: `1.5` is no whole number of 32 bits",
        ),
        (
            "2",
            "2147483648\n",
            "line 1 of the samples: `2147483648` is no whole number",
        ),
        (
            "2",
            "1\n\n2\n",
            "line 2 of the samples: `` is no whole number",
        ),
        (
            "4",
            "0,5\n",
            "line 1 of the samples: `0,5` is no decimal number",
        ),
        ("4", "1e39\n", "line 1 of the samples: `1e39` is too large"),
        (
            "5",
            "0xg\n",
            "line 1 of the samples: `0xg` is no bit pattern",
        ),
    ] {
        let samples = folder.keep("samples", samples);
        sentence(add(&shot, &none, code, &samples), says);
    }
    let samples = folder.keep("samples", [0xFF, 0xFE]);
    sentence(add(&shot, &none, "1", &samples), "is no text");
}

/// Runs an addition that may write no more than some KiB, so that it cannot end.
fn cut_short(folder: &Folder, before: &str) -> Output {
    let samples: String = "1\n".repeat(200_000);
    let samples = folder.keep("samples", samples);
    let script = format!("{before} ulimit -c 0; ulimit -f 8; exec \"$@\"");
    let mut command = Command::new("sh");
    command.args(["-c", &script, "sh", env!("CARGO_BIN_EXE_seg2"), "add"]);
    command
        .arg(folder.path("shot"))
        .arg("--sheet")
        .arg(folder.path("none"));
    command.args(["--code", "2", "--samples"]).arg(samples);
    command.output().expect("a shell")
}

#[test]
fn an_addition_that_is_cut_short_leaves_the_old_file() {
    let folder = Folder::new("cut-short");
    let mut image = Builder::start(Order::Low, 9, b"").expect("a start");
    image.add_integers(b"", 1, &[1]).expect("a trace");
    let before = image.finish();
    let shot = folder.keep("shot", &before);
    folder.keep("none", "");
    // the system ends the tool in the middle of the writing
    let killed = cut_short(&folder, "");
    assert_eq!(killed.status.code(), None, "{}", text(&killed.stderr));
    assert_eq!(std::fs::read(&shot).expect("the file"), before);
    // or tells it that there is no more room; then nothing is left beside the file
    let folder = Folder::new("no-more-room");
    let shot = folder.keep("shot", &before);
    folder.keep("none", "");
    let told = cut_short(&folder, "trap '' XFSZ;");
    assert_eq!(told.status.code(), Some(2));
    assert!(
        text(&told.stderr).contains("cannot be written"),
        "{}",
        text(&told.stderr)
    );
    assert_eq!(std::fs::read(&shot).expect("the file"), before);
    assert_eq!(folder.names(), ["none", "samples", "shot"]);
}

#[test]
fn an_addition_follows_a_link_and_keeps_the_mode() {
    use std::os::unix::fs::PermissionsExt;
    let folder = Folder::new("link");
    let image = Builder::start(Order::Low, 9, b"").expect("a start");
    let shot = folder.keep("shot", image.bytes());
    let mode = std::fs::Permissions::from_mode(0o640);
    std::fs::set_permissions(&shot, mode).expect("a mode");
    let link = folder.path("link");
    std::os::unix::fs::symlink(&shot, &link).expect("a link");
    let (none, samples) = (folder.keep("none", ""), folder.keep("samples", "1\n"));
    assert_eq!(add(&link, &none, "1", &samples).0, 0);
    let about = std::fs::symlink_metadata(&link).expect("the link");
    assert!(about.is_symlink());
    let about = std::fs::metadata(&shot).expect("the file");
    assert_eq!(about.permissions().mode() & 0o777, 0o640);
    assert_eq!(run!("check", shot).0, 0);
}

// ---- explain

#[test]
fn explain_has_every_row() {
    for number in seg2::numbers() {
        let (status, out, error) = run!("explain", number.to_string());
        assert_eq!((status, error.as_str()), (0, ""));
        assert!(
            out.starts_with(&format!("{number}: {}\nplace: ", seg2::text(number))),
            "{out}"
        );
        assert_eq!(out.lines().count(), 4, "{out}");
    }
}

/// Document 02, §4: "Refusals of this writing, place 0: 20 zero with minus, 21 more than 18
/// digits or more than 2 after E, 30 no room". The rows stand for more than that, and say so.
#[test]
fn explain_tells_of_numbers_that_are_written() {
    for (number, place, rule) in [
        ("20", "0 for a text by itself", "a zero has no minus"),
        (
            "21",
            "for a number to be written",
            "18 digits before E and 2",
        ),
        ("30", "always 0", "24 are enough"),
    ] {
        let (_, out, _) = run!("explain", number);
        let lines: Vec<&str> = out.lines().collect();
        assert!(lines[1].contains(place), "{out}");
        assert!(lines[2].contains(rule), "{out}");
        assert!(lines[2].contains("to be written"), "{out}");
    }
}
