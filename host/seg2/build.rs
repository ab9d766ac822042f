//! Finds the archive of the proved crate `seg2` that was made for the target, and looks into
//! it: one for another machine or system could link, and then fail where it runs. And tells the
//! crate the version, which stands in the header alone.

use std::env;
use std::path::{Path, PathBuf};

/// Where the archive stands, if not in the repository's `archives/`.
const FOLDER: &str = "SEG2_ARCHIVE_DIR";

/// What an archive was made for, as its object files tell it. Android's are told from Linux's by
/// their name in the archive (tools/lib-archive.sh).
#[derive(Clone, Copy, PartialEq)]
enum System {
    Linux,
    Android,
    MacOs,
    Ios,
    Simulator,
}

impl System {
    fn name(self) -> &'static str {
        match self {
            System::Linux => "Linux",
            System::Android => "Android",
            System::MacOs => "macOS",
            System::Ios => "iOS",
            System::Simulator => "the iOS simulator",
        }
    }
}

/// A target's archive among those of `tools/platform-archives`.
fn platform(target: &str) -> Option<&'static str> {
    Some(match target {
        "x86_64-unknown-linux-gnu" => "linux-x86_64",
        "aarch64-unknown-linux-gnu" => "linux-aarch64",
        "x86_64-linux-android" => "android-x86_64",
        "aarch64-linux-android" => "android-arm64-v8a",
        "aarch64-apple-ios" => "ios-arm64",
        "aarch64-apple-ios-sim" | "x86_64-apple-ios" => "ios-simulator",
        "aarch64-apple-darwin" | "x86_64-apple-darwin" => "macos",
        _ => return None,
    })
}

/// What an archive for a target is for, whether the table has the target or not.
fn system(target: &str) -> Option<System> {
    if target.contains("-linux-") {
        let android = target.contains("-linux-android");
        return Some(if android {
            System::Android
        } else {
            System::Linux
        });
    }
    match target.split_once("-apple-")? {
        (_, "darwin") => Some(System::MacOs),
        (_, "ios-sim") | ("x86_64", "ios") => Some(System::Simulator),
        (_, "ios") => Some(System::Ios),
        _ => None,
    }
}

fn main() {
    println!("cargo:rerun-if-env-changed={FOLDER}");
    let word = |name: &str| env::var(name).expect("cargo tells it");
    let (target, machine) = (word("TARGET"), word("HOST"));
    let root = PathBuf::from(word("CARGO_MANIFEST_DIR")).join("../..");
    println!(
        "cargo:rustc-env=SEG2_VERSION={}",
        version(&root.join("include/seg2.h"))
    );

    let (folder, missing) = if let Some(folder) = env::var_os(FOLDER) {
        (
            PathBuf::from(folder),
            format!("{FOLDER} leads to no archive"),
        )
    } else {
        let script = |words| {
            format!("the archive for {target} is missing: run `{words}` in the repository first")
        };
        match platform(&target) {
            Some(name) if name.starts_with("linux-") && target == machine => (root.join("archives/native"), script("tools/native-archive seg2")),
            Some(name) => (root.join("archives").join(name), script(&format!("tools/platform-archives {name}"))),
            None => stop(&format!(
                "there is no archive of the proved library for {target}. `tools/platform-archives` makes those for Linux with glibc, \
                 Android, iOS, its simulator and macOS, 64 bits each. If you have another, set {FOLDER} to the folder that its \
                 libseg2.a is in"
            )),
        }
    };
    let archive = folder.join("libseg2.a");
    println!("cargo:rerun-if-changed={}", archive.display());
    if !archive.is_file() {
        stop(&format!("{missing} ({})", archive.display()));
    }
    look(&archive, &target);
    println!("cargo:rustc-link-search=native={}", folder.display());
    println!("cargo:rustc-link-lib=static:+verbatim=libseg2.a");
}

/// The header's three numbers.
fn version(header: &Path) -> String {
    println!("cargo:rerun-if-changed={}", header.display());
    let Ok(text) = std::fs::read_to_string(header) else {
        stop(&format!("the header is missing ({})", header.display()));
    };
    let numbers = ["MAJOR", "MINOR", "PATCH"].map(|name| {
        let word = format!("#define SEG2_VERSION_{name} ");
        let number = text.lines().find_map(|line| line.strip_prefix(&word));
        number
            .filter(|n| n.parse::<u32>().is_ok())
            .unwrap_or_else(|| stop(&format!("the header has no line `{word}NUMBER`")))
    });
    numbers.join(".")
}

/// Ends the build where the archive is for another target than is asked.
fn look(archive: &Path, target: &str) {
    let data = std::fs::read(archive)
        .unwrap_or_else(|e| stop(&format!("{} cannot be read: {e}", archive.display())));
    let arch = target.split('-').next().unwrap_or_default();
    let found = made_for(&data, arch);
    match (found, system(target)) {
        (Some((cpu, of)), Some(system)) if cpu == arch && of == system => {}
        (None, _) => stop(&format!(
            "{} is no archive of the proved library",
            archive.display()
        )),
        (Some((cpu, of)), _) => stop(&format!(
            "{} was made for {} on {cpu}, and {target} is asked for",
            archive.display(),
            of.name()
        )),
    }
}

/// The processor and the system of an archive's first object; of a fat one's, that for `arch` if it has it.
fn made_for(data: &[u8], arch: &str) -> Option<(&'static str, System)> {
    const FAT: u32 = 0xCAFE_BABE;
    if big(data, 0)? == FAT {
        let parts = (0..big(data, 4)? as usize).map(|i| {
            let (start, size) = (
                big(data, 16 + 20 * i)? as usize,
                big(data, 20 + 20 * i)? as usize,
            );
            made_for(data.get(start..start.checked_add(size)?)?, arch)
        });
        let parts: Vec<_> = parts.flatten().collect();
        return parts
            .iter()
            .find(|part| part.0 == arch)
            .or(parts.first())
            .copied();
    }
    let (name, file) = first(data)?;
    object(name, file)
}

/// The name of an archive's first file that is none of its own tables, and the file. Apple's
/// archives keep a name in front of the file itself.
fn first(data: &[u8]) -> Option<(&[u8], &[u8])> {
    let mut rest = data.strip_prefix(b"!<arch>\n")?;
    loop {
        let text = |from: usize, to: usize| {
            Some(std::str::from_utf8(rest.get(from..to)?).ok()?.trim_end())
        };
        let (name, size) = (text(0, 16)?, text(48, 58)?.parse::<usize>().ok()?);
        let body = rest.get(60..60usize.checked_add(size)?)?;
        let (name, file) = match name.strip_prefix("#1/") {
            Some(long) => body.split_at_checked(long.parse().ok()?)?,
            None => (name.as_bytes(), body),
        };
        if !(name == b"/" || name == b"//" || name.starts_with(b"__.SYMDEF")) {
            return Some((name, file));
        }
        rest = rest.get(60 + size + size % 2..)?;
    }
}

/// ELF's e_machine, or Mach-O's processor and the system of its LC_BUILD_VERSION.
fn object(name: &[u8], file: &[u8]) -> Option<(&'static str, System)> {
    const MACHO: u32 = 0xFEED_FACF;
    const BUILD_VERSION: u32 = 0x32;
    if file.starts_with(b"\x7FELF\x02\x01") {
        let system = match name.ends_with(b"-android.o/") {
            true => System::Android,
            false => System::Linux,
        };
        return match little(file, 18)? & 0xFFFF {
            62 => Some(("x86_64", system)),
            183 => Some(("aarch64", system)),
            _ => None,
        };
    }
    let cpu = match (little(file, 0)?, little(file, 4)?) {
        (MACHO, 0x0100_0007) => "x86_64",
        (MACHO, 0x0100_000C) => "aarch64",
        _ => return None,
    };
    let mut at = 32;
    for _ in 0..little(file, 16)? {
        if little(file, at)? == BUILD_VERSION {
            return match little(file, at + 8)? {
                1 => Some((cpu, System::MacOs)),
                2 => Some((cpu, System::Ios)),
                7 => Some((cpu, System::Simulator)),
                _ => None,
            };
        }
        at = at.checked_add(little(file, at + 4)? as usize)?;
    }
    None
}

fn four(data: &[u8], at: usize) -> Option<[u8; 4]> {
    data.get(at..at.checked_add(4)?)?.try_into().ok()
}

fn little(data: &[u8], at: usize) -> Option<u32> {
    four(data, at).map(u32::from_le_bytes)
}

fn big(data: &[u8], at: usize) -> Option<u32> {
    four(data, at).map(u32::from_be_bytes)
}

/// Cargo shows what stands here before anything else that the build said.
fn stop(words: &str) -> ! {
    eprintln!("seg2: {words}");
    std::process::exit(1);
}
