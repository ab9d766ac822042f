//! The office's and the crew's tool for SEG-2 shot files. Every answer about a file is
//! the proved library's; here are words, files and lines of text. What is found beside a
//! refusal comes from `words`, which is tested and not proved.
#![deny(unsafe_code)]

mod beside;
mod check;
mod explain;
mod files;
mod folder;
#[cfg(test)]
#[path = "../tests/common/folder.rs"]
mod folder_of_tests;
mod held;
mod help;
mod json;
mod list;
mod lock;
mod options;
mod samples;
mod stop;
mod value;
mod words;
mod write;

use std::ffi::OsString;
use std::process::ExitCode;

use files::print;
use options::Options;
use stop::{unusable, Answer};

fn main() -> ExitCode {
    let words: Vec<OsString> = std::env::args_os().skip(1).collect();
    let status = run(&words).unwrap_or_else(|stop| stop.tell());
    ExitCode::from(status)
}

fn run(words: &[OsString]) -> Answer {
    let Some((verb, rest)) = words.split_first() else {
        return Err(unusable(format!("what is to be done?\n\n{}", help::all())));
    };
    let verb = verb.to_string_lossy();
    match verb.as_ref() {
        "help" | "--help" | "-h" => return print(asked_help(rest)?.as_bytes()),
        "version" | "--version" | "-V" => return print(help::version().as_bytes()),
        _ => {}
    }
    let command = help::command(&verb).ok_or_else(|| no_command(&verb))?;
    match Options::of(command, rest)? {
        Some(given) => (command.run)(&given),
        None => print(command.help().as_bytes()),
    }
}

/// The help of the commands that are named, else of all.
fn asked_help(names: &[OsString]) -> Answer<String> {
    if names.is_empty() {
        return Ok(help::all());
    }
    let one = |name: &OsString| {
        let name = name.to_string_lossy();
        let command = help::command(&name).ok_or_else(|| no_command(&name))?;
        Ok(command.help())
    };
    names.iter().map(one).collect()
}

fn no_command(name: &str) -> stop::Stop {
    unusable(format!("`{name}` is no command; `seg2 help` lists them"))
}
