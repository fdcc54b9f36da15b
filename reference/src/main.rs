//! `reference list`, `follow` and `replay` read standard input and print;
//! `reference join FIRST SECOND` reads two files and prints;
//! `reference store DIR` writes the stored inputs and outputs, and
//! `reference store --check DIR` compares them.

use reference::{follow, join, listing, replay, store};
use std::fs;
use std::io::{self, Read, Write};
use std::path::Path;
use std::process::ExitCode;

const USAGE: &str =
    "usage: reference list | follow | replay | join FIRST SECOND | store [--check] DIR";

fn main() -> ExitCode {
    let arguments: Vec<String> = std::env::args().skip(1).collect();
    let arguments: Vec<&str> = arguments.iter().map(String::as_str).collect();
    let done = match arguments.as_slice() {
        ["list"] => pass(listing::text),
        ["follow"] => pass(follow::text),
        ["replay"] => pass(replay::text),
        ["join", first, second] => join_files(Path::new(first), Path::new(second)),
        ["store", "--check", directory] => return check(Path::new(directory)),
        ["store", directory] => store::write(Path::new(directory)),
        _ => Err(io::Error::other(USAGE)),
    };
    match done {
        Ok(()) => ExitCode::SUCCESS,
        Err(error) => {
            eprintln!("{error}");
            ExitCode::FAILURE
        }
    }
}

/// Standard input through a program to standard output.
fn pass(program: fn(&[u8]) -> String) -> io::Result<()> {
    let mut input = Vec::new();
    io::stdin().lock().read_to_end(&mut input)?;
    io::stdout().lock().write_all(program(&input).as_bytes())
}

/// Two files joined, to standard output.
fn join_files(first: &Path, second: &Path) -> io::Result<()> {
    let output = join::output(&fs::read(first)?, &fs::read(second)?);
    io::stdout().lock().write_all(&output)
}

/// Says which stored files differ, if any.
fn check(directory: &Path) -> ExitCode {
    let differing = store::differing(directory);
    for file in &differing {
        println!("{file} differs");
    }
    if differing.is_empty() {
        ExitCode::SUCCESS
    } else {
        ExitCode::FAILURE
    }
}
