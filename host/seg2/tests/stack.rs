//! How much stack the exported functions use. 32 KiB are enough for each, as the
//! header says, and code 3 needs no more than code 2: painted, by a program in C that
//! switches to a stack of its own (stack.c says why). No input needs more than
//! docs/PERFORMANCE.md says: read out of the machine code by tools/frames.

mod c;

use c::{compiled, here, printed, root, Temporary};
use std::collections::BTreeMap;
use std::os::unix::process::ExitStatusExt;
use std::path::Path;
use std::process::{Command, Output};

fn program(name: &str) -> Temporary {
    let source = here().join("tests/stack.c");
    compiled("cc", &["-std=c99", "-O1"], &source, name).expect("a C compiler")
}

fn run(program: &Temporary, words: &[&str]) -> Output {
    let mut command = Command::new(program.path());
    command.args(words).output().expect("the program runs")
}

fn text(bytes: &[u8]) -> String {
    String::from_utf8_lossy(bytes).into_owned()
}

/// The lines of what was printed: a name, then a number.
fn numbers(printed: &str) -> BTreeMap<String, usize> {
    let row = |line: &str| {
        let (name, rest) = line.rsplit_once(' ').expect("a name and a number");
        (name.to_string(), rest.parse().expect("a number"))
    };
    printed.lines().map(row).collect()
}

fn frames(words: &[&str]) -> Output {
    let mut command = Command::new("python3");
    command.arg(root().join("tools/frames")).args(words);
    command.output().expect("python3")
}

/// What each call needs for all inputs, without the chain that needs it.
fn bounds() -> BTreeMap<String, usize> {
    let out = frames(&[]);
    assert!(out.status.success(), "{}", text(&out.stderr));
    let chains = text(&out.stdout);
    let heads = chains.lines().filter_map(|line| line.split(':').next());
    numbers(&heads.collect::<Vec<_>>().join("\n"))
}

#[test]
fn every_function_runs_on_a_stack_of_32_kib() {
    let used = printed(&program("stack"));
    println!("bytes of stack used at most:\n{used}");
    let face = std::fs::read_to_string(root().join("crates/seg2/src/lib.rt")).expect("the face");
    let exported = face.split("extern \"C\" fn ").skip(1);
    let names: Vec<&str> = exported.filter_map(|rest| rest.split('(').next()).collect();
    assert!(names.len() >= 44);
    for name in names {
        let line = used
            .lines()
            .find_map(|line| line.strip_prefix(&format!("{name} ")));
        let bytes: usize = line
            .unwrap_or_else(|| panic!("{name} was not run"))
            .parse()
            .expect("a number");
        // none at all would mean that nothing was measured
        assert!((16..32 * 1024).contains(&bytes), "{name} used {bytes}");
    }
}

#[test]
fn code_3_is_read_on_at_most_64_bytes_more_than_code_2() {
    let out = run(&program("stack-samples"), &["samples"]);
    assert!(out.status.success(), "{}", text(&out.stderr));
    let used = numbers(&text(&out.stdout));
    println!("bytes of stack that seg2_integers used: {used:?}");
    for order in ["low", "high"] {
        let of = |code: u8| used[&format!("{code} {order}")];
        assert!(of(1) > 16, "nothing was measured");
        assert!(of(3) <= of(2) + 64, "{order}: {} and {}", of(3), of(2));
    }
}

#[test]
fn no_call_goes_deeper_than_its_frames() {
    let used = numbers(&printed(&program("stack-frames")));
    let bounds = bounds();
    assert!(bounds.len() >= 42);
    for (name, bound) in bounds {
        // in the paint is also what the test has above the call: what a call of nothing
        // has, and at most 64 bytes of the function that makes it
        let painted = used[&name] - used["nothing"];
        assert!(painted <= bound + 64, "{name} used {painted} of {bound}");
        // and the frames are those of the calls that were made
        assert!(2 * painted >= bound, "{name} used {painted} of {bound}");
    }
}

#[test]
fn the_page_tells_how_deep_each_call_goes() {
    let out = frames(&["--check"]);
    assert!(out.status.success(), "{}", text(&out.stderr));
}

/// What pages say of all calls is what the table has: README, and the two that name the
/// most.
#[test]
fn pages_tell_the_most_that_a_call_needs() {
    let page = |name: &str| std::fs::read_to_string(root().join(name)).expect("a page");
    let (mut arm, mut x86) = (Vec::new(), Vec::new());
    for line in page("docs/PERFORMANCE.md").lines() {
        let cells: Vec<&str> = line.split('|').map(str::trim).collect();
        match cells[..] {
            ["", call, on_arm, _, on_x86, _, ""] if call.starts_with("`seg2_") => {
                arm.push(on_arm.parse::<usize>().expect("a number"));
                x86.push(on_x86.parse::<usize>().expect("a number"));
            }
            _ => {}
        }
    }
    assert_eq!(arm.len(), bounds().len());
    let most = [arm, x86].map(|bytes| bytes.into_iter().max().expect("a call"));
    assert!(page("README.md").contains("none needs more than 1 KiB of stack"));
    assert!(most.iter().all(|&bytes| bytes <= 1024), "{most:?}");
    let [arm, x86] = most.map(|bytes| match bytes {
        0..1000 => bytes.to_string(),
        _ => format!("1,{:03}", bytes - 1000),
    });
    let using = format!("no call needs more than {arm} bytes on AArch64 and {x86} on x86-64");
    assert!(page("docs/USING.md").contains(&using), "{using}");
    let phone = format!("no call needs more than {arm} bytes below its caller");
    assert!(page("docs/PHONE.md").contains(&phone), "{phone}");
}

/// An archive of C code in the place of the proved one.
fn archive(name: &str, code: &str) -> Temporary {
    let source = Temporary::new(&format!("{name}.c"));
    let object = Temporary::new(&format!("{name}.o"));
    std::fs::write(source.path(), code).expect("a file");
    let status = Command::new("cc")
        .args([
            "-O1",
            "-fno-optimize-sibling-calls",
            "-fno-stack-protector",
            "-fcf-protection=none",
            "-c",
        ])
        .arg(source.path())
        .arg("-o")
        .arg(object.path())
        .status();
    assert!(status.expect("a C compiler").success());
    object
}

fn path(file: &Path) -> &str {
    file.to_str().expect("a path in UTF-8")
}

#[test]
fn frames_counts_a_chain_and_refuses_what_it_cannot_count() {
    let sound = "__attribute__((noinline)) static void low(volatile char *p) { volatile char room[400]; room[9] = *p; *p = room[9]; }\n\
        void seg2_a(volatile char *p) { volatile char room[200]; room[3] = *p; low(room); *p = room[3]; }\n";
    let object = archive("frames-sound", sound);
    let out = frames(&[path(object.path())]);
    assert!(out.status.success(), "{}", text(&out.stderr));
    let (head, chain) = {
        let line = text(&out.stdout);
        let (head, chain) = line.trim().split_once(": ").expect("a chain");
        (head.to_string(), chain.to_string())
    };
    let bytes = numbers(&head)["seg2_a"];
    assert!((600..760).contains(&bytes), "{bytes}");
    assert!(
        chain.starts_with("seg2_a ") && chain.contains(", low "),
        "{chain}"
    );

    // the page has no call of this name, and fewer bytes for the check
    let deeper = sound
        .replace("seg2_a", "seg2_check")
        .replace("[200]", "[2000]");
    for (name, code, why) in [
        ("unknown", sound, "seg2_a is not in the table"),
        ("deeper", &deeper, "seg2_check needs"),
    ] {
        let object = archive(&format!("frames-{name}"), code);
        let out = frames(&["--check", path(object.path())]);
        assert!(!out.status.success(), "{name} was let through");
        assert!(text(&out.stderr).contains(why), "{}", text(&out.stderr));
    }

    for (name, code, why) in [
        (
            "itself",
            "int seg2_a(volatile int *p) { return *p ? seg2_a(p + 1) + *p : 0; }\n",
            "reaches itself",
        ),
        (
            "register",
            "int seg2_a(int (*f)(void), int *p) { return f() + *p; }\n",
            "through a register",
        ),
        (
            "moves",
            "void use(char *);\nvoid seg2_a(unsigned long n) { use(__builtin_alloca(n)); }\n",
            "unknown number",
        ),
        (
            "beyond",
            "int other(void);\nint seg2_a(int n) { return n + other(); }\n",
            "a call of other",
        ),
    ] {
        let object = archive(&format!("frames-{name}"), code);
        let out = frames(&[path(object.path())]);
        assert!(!out.status.success(), "{name} was counted");
        assert!(
            text(&out.stderr).contains(why),
            "{name}: {}",
            text(&out.stderr)
        );
    }
}

#[test]
fn the_measure_sees_16_kib_and_the_guard_ends_what_goes_deeper() {
    let program = program("stack-tried");
    let measured = run(&program, &["measured"]);
    let used: usize = text(&measured.stdout).trim().parse().expect("a number");
    assert!((16 * 1024..20 * 1024).contains(&used), "{used}");
    let deep = run(&program, &["deep"]);
    assert!(deep.status.signal().is_some(), "{}", deep.status);
}
