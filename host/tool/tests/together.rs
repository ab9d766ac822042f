//! Nothing is lost: runs at the same time, runs that are killed, programs that know
//! nothing of our locks, and files that nobody may write.

mod common;

use common::{add, ended, run, sentence, text, tool, Folder};
use std::fs::{self, Permissions};
use std::os::unix::fs::{MetadataExt, PermissionsExt};
use std::path::{Path, PathBuf};
use std::process::{Child, Command, Stdio};
use std::time::{Duration, Instant};

use seg2::{Builder, File, Order};

/// A shot file with room for so many traces, and one trace in it.
fn started(folder: &Folder, slots: u32) -> PathBuf {
    let mut image = Builder::start(Order::Low, slots, b"").expect("a start");
    image.add_integers(b"", 1, &[1]).expect("a trace");
    folder.keep("shot", image.bytes())
}

fn command(shot: &Path, sheet: &Path, samples: &Path) -> Command {
    let mut command = tool();
    command.arg("add").arg(shot).arg("--sheet").arg(sheet);
    command.args(["--code", "2", "--samples"]).arg(samples);
    command.stdin(Stdio::null());
    command.stdout(Stdio::piped()).stderr(Stdio::piped());
    command
}

/// The sheets of all traces behind the first, as STACK numbers.
fn stacks(shot: &Path) -> Vec<u64> {
    let bytes = fs::read(shot).expect("the file");
    let file = File::open(&bytes).expect("an accepted file");
    let traces = file.traces().skip(1);
    let stack = |trace: seg2::Trace| trace.number(b"STACK").expect("a number").coefficient;
    traces.map(stack).collect()
}

/// Many additions at once, each with its own sheet: exit status and errors of each.
fn at_once(folder: &Folder, shot: &Path, count: usize) -> Vec<(i32, String)> {
    let samples = folder.keep("samples", "1\n2\n3\n");
    let children: Vec<Child> = (0..count)
        .map(|i| {
            let sheet = folder.keep(&format!("sheet-{i}"), format!("STACK\t{i}\n"));
            let mut command = command(shot, &sheet, &samples);
            command.spawn().expect("the tool runs")
        })
        .collect();
    let ends = children.into_iter().map(|child| {
        let (status, _, error) = ended(child.wait_with_output().expect("an end"));
        (status, error)
    });
    ends.collect()
}

fn hidden(folder: &Folder) -> Vec<String> {
    let names = folder.names().into_iter();
    names.filter(|name| name.starts_with('.')).collect()
}

#[test]
fn twenty_additions_at_once_are_twenty_traces() {
    for round in 0..3 {
        let folder = Folder::new(&format!("twenty-{round}"));
        let shot = started(&folder, 21);
        for (status, error) in at_once(&folder, &shot, 20) {
            assert_eq!((status, error.as_str()), (0, ""));
        }
        let mut stacks = stacks(&shot);
        stacks.sort_unstable();
        assert_eq!(stacks, (0..20).collect::<Vec<u64>>());
        assert_eq!(hidden(&folder), [""; 0]);
    }
}

#[test]
fn those_that_do_not_come_in_are_told() {
    let folder = Folder::new("eight");
    let shot = started(&folder, 9);
    let ends = at_once(&folder, &shot, 12);
    let mut came_in = Vec::new();
    for (i, (status, error)) in ends.into_iter().enumerate() {
        match status {
            0 => came_in.push(i as u64),
            1 => assert!(error.contains("refused (24)"), "{error}"),
            _ => panic!("{error}"),
        }
    }
    let mut stacks = stacks(&shot);
    stacks.sort_unstable();
    assert_eq!((stacks.len(), stacks), (8, came_in));
}

#[test]
fn of_many_that_start_a_file_one_does() {
    let folder = Folder::new("new-many");
    let shot = folder.path("shot");
    let children: Vec<Child> = (0..20)
        .map(|i| {
            let slots = (i + 1).to_string();
            let mut command = tool();
            command.arg("new").arg(&shot);
            command.args(["--order", "low", "--slots", &slots]);
            command.stdout(Stdio::piped()).stderr(Stdio::piped());
            command.spawn().expect("the tool runs")
        })
        .collect();
    let mut made = Vec::new();
    for (i, child) in children.into_iter().enumerate() {
        let (status, _, error) = ended(child.wait_with_output().expect("an end"));
        match status {
            0 => made.push(i),
            _ => assert!(error.contains("it is there already"), "{status}: {error}"),
        }
    }
    assert_eq!(made.len(), 1, "{made:?}");
    let image = Builder::start(Order::Low, made[0] as u32 + 1, b"").expect("a start");
    assert_eq!(fs::read(&shot).expect("the file"), image.bytes());
    assert_eq!(folder.names(), ["shot"]);
}

// ---- runs that are ended

/// Whether a hidden file has bytes already, and so its lock.
fn is_being_written(folder: &Folder) -> bool {
    let about = |name: &String| fs::metadata(folder.path(name));
    let mut sizes = hidden(folder).into_iter().flat_map(|name| about(&name));
    sizes.any(|about| about.len() > 0)
}

/// An addition that is stopped in the middle: its hidden file is there, the lock is held,
/// and nothing is replaced yet.
struct Inside {
    folder: Folder,
    shot: PathBuf,
    before: Vec<u8>,
    child: Child,
}

impl Inside {
    fn new(name: &str) -> Inside {
        for attempt in 0..20 {
            let folder = Folder::new(&format!("{name}-{attempt}"));
            let shot = started(&folder, 9);
            let before = fs::read(&shot).expect("the file");
            let sheet = folder.keep("sheet", "STACK\t7\n");
            let samples = folder.keep("many", "1\n".repeat(6_000_000));
            let mut command = command(&shot, &sheet, &samples);
            let mut child = command.spawn().expect("the tool runs");
            let mut ended = false;
            while !is_being_written(&folder) && !ended {
                ended = child.try_wait().expect("a child").is_some();
            }
            if ended {
                continue;
            }
            signal(&child, "-STOP");
            std::thread::sleep(Duration::from_millis(20));
            if hidden(&folder).len() == 1 && fs::read(&shot).expect("the file") == before {
                return Inside {
                    folder,
                    shot,
                    before,
                    child,
                };
            }
            // it was too quick: once more
            let _ = child.kill();
            let _ = child.wait();
        }
        panic!("no addition could be stopped in the middle");
    }

    /// Lets it go on to its end.
    fn goes_on(self) -> (Folder, PathBuf, common::Ended) {
        signal(&self.child, "-CONT");
        let out = self.child.wait_with_output().expect("an end");
        (self.folder, self.shot, ended(out))
    }

    /// Ends it as nothing can be ended more suddenly.
    fn killed(mut self) -> (Folder, PathBuf) {
        self.child.kill().expect("SIGKILL");
        self.child.wait().expect("an end");
        assert_eq!(fs::read(&self.shot).expect("the file"), self.before);
        assert_eq!(hidden(&self.folder).len(), 1);
        (self.folder, self.shot)
    }
}

fn signal(child: &Child, name: &str) {
    let mut kill = Command::new("kill");
    let status = kill.args([name, &child.id().to_string()]).status();
    assert!(status.expect("a command `kill`").success());
}

/// An addition of a small trace that waits so many seconds.
fn add_within(folder: &Folder, shot: &Path, seconds: &str) -> common::Ended {
    let sheet = folder.keep("small-sheet", "STACK\t8\n");
    let samples = folder.keep("few", "1\n");
    let mut command = command(shot, &sheet, &samples);
    command.args(["--wait", seconds]);
    ended(command.output().expect("the tool runs"))
}

/// Starts a file in the folder.
fn new_in(folder: &Folder) {
    let other = folder.path("other");
    let (status, _, error) = run!("new", other, "--order", "low", "--slots", "1");
    assert_eq!((status, error.as_str()), (0, ""));
}

#[test]
fn a_killed_addition_leaves_the_old_file_no_lock_and_what_the_next_one_clears() {
    let (folder, shot) = Inside::new("killed").killed();
    let (status, _, error) = add_within(&folder, &shot, "0");
    assert_eq!((status, error.as_str()), (0, ""));
    assert_eq!(stacks(&shot), [8]);
    assert_eq!(hidden(&folder), [""; 0]);
}

#[test]
fn what_a_killed_addition_leaves_a_start_clears_too() {
    let (folder, _) = Inside::new("killed-new").killed();
    new_in(&folder);
    assert_eq!(hidden(&folder), [""; 0]);
}

#[test]
fn an_addition_waits_for_another_and_says_when_it_gives_up() {
    let inside = Inside::new("waits");
    let (folder, shot) = (&inside.folder, &inside.shot);
    let began = Instant::now();
    let says = "is held by another addition for 0 s: no trace was added; run it again";
    sentence(add_within(folder, shot, "0"), says);
    let says = "is held by another addition for 1 s";
    sentence(add_within(folder, shot, "1"), says);
    assert!(began.elapsed() >= Duration::from_secs(1));
    // its hidden file is in use, and nobody clears it
    new_in(folder);
    assert_eq!(hidden(folder).len(), 1);
    let (folder, shot, (status, _, error)) = inside.goes_on();
    assert_eq!((status, error.as_str()), (0, ""));
    let (status, _, error) = add_within(&folder, &shot, "0");
    assert_eq!((status, error.as_str()), (0, ""));
    assert_eq!(stacks(&shot), [7, 8]);
    assert_eq!(hidden(&folder), [""; 0]);
}

#[test]
fn a_file_that_another_program_changes_meanwhile_is_left_to_it() {
    let inside = Inside::new("changed");
    fs::write(&inside.shot, "somebody else's work").expect("written over");
    let (folder, shot, end) = inside.goes_on();
    sentence(
        end,
        "was changed by another program meanwhile: no trace was added",
    );
    assert_eq!(fs::read(&shot).expect("the file"), b"somebody else's work");
    assert_eq!(hidden(&folder), [""; 0]);
}

#[test]
fn killed_at_any_time_it_is_the_old_file_or_the_new_one() {
    let folder = Folder::new("any-time");
    let shot = started(&folder, 100);
    let sheet = folder.keep("sheet", "STACK\t7\n");
    let samples = folder.keep("many", "1\n".repeat(50_000));
    let mut count = 0;
    for round in 0..40 {
        let mut child = command(&shot, &sheet, &samples).spawn().expect("the tool");
        std::thread::sleep(Duration::from_micros(500 * round));
        child.kill().expect("SIGKILL");
        let whole = child.wait().expect("an end").success();
        let now = stacks(&shot);
        assert!(now.iter().all(|&stack| stack == 7));
        assert!(
            now.len() == count || now.len() == count + 1,
            "{}",
            now.len()
        );
        assert!(now.len() > count || !whole);
        count = now.len();
    }
    let (status, _, error) = add_within(&folder, &shot, "0");
    assert_eq!((status, error.as_str()), (0, ""));
    assert_eq!(stacks(&shot).len(), count + 1);
    assert_eq!(hidden(&folder), [""; 0]);
}

#[test]
fn a_start_that_is_killed_is_a_whole_file_or_none() {
    let folder = Folder::new("new-killed");
    let sheet = folder.keep("sheet", format!("A\t{}\n", "1".repeat(60_000)));
    let image = Builder::start(Order::Low, 16_383, &fs::read(&sheet).expect("the sheet"));
    let image = image.expect("a start").finish();
    let shot = folder.path("shot");
    let words = ["--order", "low", "--slots", "16383", "--sheet"];
    for round in 0..40 {
        let mut command = tool();
        command.arg("new").arg(&shot).args(words).arg(&sheet);
        command.stdout(Stdio::null()).stderr(Stdio::null());
        let mut child = command.spawn().expect("the tool runs");
        std::thread::sleep(Duration::from_micros(250 * round));
        child.kill().expect("SIGKILL");
        let whole = child.wait().expect("an end").success();
        match fs::read(&shot) {
            Ok(bytes) => assert!(bytes == image, "{} bytes", bytes.len()),
            Err(_) => assert!(!whole),
        }
        let _ = fs::remove_file(&shot);
    }
    new_in(&folder);
    assert_eq!(folder.names(), ["other", "sheet"]);
}

// ---- what may not be written

fn set_mode(path: &Path, mode: u32) {
    fs::set_permissions(path, Permissions::from_mode(mode)).expect("a mode");
}

#[test]
fn a_write_protected_file_is_left_alone() {
    let folder = Folder::new("protected");
    let shot = started(&folder, 9);
    let before = fs::read(&shot).expect("the file");
    set_mode(&shot, 0o444);
    let says = "shot is write-protected: nothing was written; chmod u+w allows it";
    sentence(add_within(&folder, &shot, "0"), says);
    // a link to it is no way round
    let link = folder.path("link");
    std::os::unix::fs::symlink(&shot, &link).expect("a link");
    sentence(add_within(&folder, &link, "0"), "is write-protected");
    assert_eq!(fs::read(&shot).expect("the file"), before);
    let about = fs::metadata(&shot).expect("the file");
    assert_eq!(about.mode() & 0o777, 0o444);
    assert_eq!(hidden(&folder), [""; 0]);
}

#[test]
fn a_write_protected_folder_is_left_alone() {
    let folder = Folder::new("protected-folder");
    let inner = folder.path("inner");
    fs::create_dir(&inner).expect("a folder");
    let shot = started(&folder, 9);
    let kept = inner.join("shot");
    fs::rename(&shot, &kept).expect("a file in it");
    let before = fs::read(&kept).expect("the file");
    set_mode(&inner, 0o555);
    let ends = [
        add_within(&folder, &kept, "0"),
        run!("new", inner.join("new"), "--order", "low", "--slots", "1"),
    ];
    let names: Vec<_> = fs::read_dir(&inner)
        .expect("the folder")
        .flatten()
        .collect();
    set_mode(&inner, 0o755);
    for end in ends {
        sentence(
            end,
            "is write-protected: nothing was written; chmod u+w on the folder",
        );
    }
    assert_eq!(
        (names.len(), fs::read(&kept).expect("the file")),
        (1, before)
    );
}

#[test]
fn an_addition_keeps_the_owner() {
    let folder = Folder::new("owner");
    let shot = started(&folder, 9);
    if std::os::unix::fs::chown(&shot, Some(1234), Some(1235)).is_err() {
        println!("no right to give files away: the owner was not tried");
        return;
    }
    assert_eq!(add_within(&folder, &shot, "0").0, 0);
    let about = fs::metadata(&shot).expect("the file");
    assert_eq!((about.uid(), about.gid()), (1234, 1235));
}

#[test]
fn what_is_no_plain_file_is_left_alone() {
    sentence(
        add(
            Path::new("/dev/null"),
            Path::new("/dev/null"),
            "1",
            Path::new("/dev/null"),
        ),
        "/dev/null is no plain file",
    );
}

#[test]
fn what_was_added_stays_added_where_nobody_listens() {
    let folder = Folder::new("unheard");
    let shot = started(&folder, 9);
    let (none, samples) = (folder.keep("none", ""), folder.keep("samples", "1\n"));
    let mut child = command(&shot, &none, &samples).spawn().expect("the tool");
    drop(child.stdout.take());
    let out = child.wait_with_output().expect("an end");
    assert_eq!(out.status.code(), Some(0), "{}", text(&out.stderr));
    // and where the words cannot be written, it is said that the trace came in
    let full = fs::OpenOptions::new().write(true).open("/dev/full");
    let mut command = command(&shot, &none, &samples);
    command.stdout(full.expect("a device that is always full"));
    let says = "seg2: it is done, but the output cannot be written";
    sentence(ended(command.output().expect("the tool")), says);
    let bytes = fs::read(&shot).expect("the file");
    assert_eq!(File::open(&bytes).expect("a file").trace_count(), 3);
}
