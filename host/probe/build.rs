//! Finds the archive of the proved crate `probe`, which is made for the machine at hand alone.

use std::env;
use std::path::PathBuf;

fn main() {
    let word = |name: &str| env::var(name).expect("cargo tells it");
    let folder = PathBuf::from(word("CARGO_MANIFEST_DIR")).join("../../archives/native");
    let archive = folder.join("libprobe.a");
    println!("cargo:rerun-if-changed={}", archive.display());
    let words = if word("TARGET") != word("HOST") {
        "probe: its archive is made for the machine at hand, and for no other target"
    } else if !archive.is_file() {
        "probe: archives/native/libprobe.a is missing: run `tools/native-archive probe` first"
    } else {
        println!("cargo:rustc-link-search=native={}", folder.display());
        println!("cargo:rustc-link-lib=static=probe");
        return;
    };
    eprintln!("{words}");
    std::process::exit(1);
}
