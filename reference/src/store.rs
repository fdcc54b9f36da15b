//! The stored inputs and outputs of the four test programs.

use crate::cases::greatest_batch::peltquarry_input;
use crate::cases::one_bottle::follow_input;
use crate::cases::pairs::{self, Pair};
use crate::cases::replay_input;
use crate::{follow, listing, replay};
use std::path::Path;
use std::{fs, io};

/// A file of the store, where it is below the store's directory, and what
/// belongs into it.
struct Stored {
    path: String,
    content: Vec<u8>,
}

impl Stored {
    fn new(path: String, content: Vec<u8>) -> Stored {
        Stored { path, content }
    }
}

/// A program from standard input to standard output.
fn input_and_output(directory: &str, input: Vec<u8>, program: fn(&[u8]) -> String) -> [Stored; 2] {
    let output = program(&input).into_bytes();
    [("stdin", input), ("stdout", output)]
        .map(|(name, content)| Stored::new(format!("{directory}/{name}"), content))
}

/// The program `join`: the two files that it is run with, named below `data`,
/// and what it prints.
fn run_of_join() -> [Stored; 2] {
    let pair = pairs::tray_change();
    let arguments = format!("{0}/first\n{0}/second\n", pair.name);
    [
        Stored::new("join/args".to_string(), arguments.into_bytes()),
        Stored::new("join/stdout".to_string(), pair.answer()),
    ]
}

/// A pair of files and what `join` prints for it.
fn pair_and_answer(pair: Pair) -> [Stored; 3] {
    let Pair { name, .. } = pair;
    let answer = pair.answer();
    [
        ("first", pair.first),
        ("second", pair.second),
        ("answer", answer),
    ]
    .map(|(file, content)| Stored::new(format!("join/data/{name}/{file}"), content))
}

fn files() -> Vec<Stored> {
    let programs = [
        input_and_output("peltquarry", peltquarry_input(), listing::text),
        input_and_output("follow", follow_input(), follow::text),
        input_and_output("replay", replay_input(), replay::text),
        run_of_join(),
    ];
    let mut files: Vec<Stored> = programs.into_iter().flatten().collect();
    files.extend(pairs::all().into_iter().flat_map(pair_and_answer));
    files
}

/// Writes all the files below a directory.
pub fn write(root: &Path) -> io::Result<()> {
    for file in files() {
        let path = root.join(file.path);
        if let Some(directory) = path.parent() {
            fs::create_dir_all(directory)?;
        }
        fs::write(path, file.content)?;
    }
    Ok(())
}

/// The files below a directory that aren't byte for byte what `write` writes.
pub fn differing(root: &Path) -> Vec<String> {
    files()
        .into_iter()
        .filter(|file| {
            let there = fs::read(root.join(&file.path));
            there.map_or(true, |content| content != file.content)
        })
        .map(|file| file.path)
        .collect()
}

#[cfg(test)]
mod tests {
    use super::*;

    #[test]
    fn join_has_arguments_an_output_and_three_files_a_pair() {
        let [arguments, output] = run_of_join();
        assert_eq!(
            (arguments.path, output.path),
            ("join/args".to_string(), "join/stdout".to_string())
        );
        let lines = b"tray_change/first\ntray_change/second\n";
        assert_eq!(arguments.content, lines);
        let [first, second, answer] = pair_and_answer(pairs::tray_change());
        assert_eq!(first.path, "join/data/tray_change/first");
        assert_eq!(second.path, "join/data/tray_change/second");
        assert_eq!(answer.path, "join/data/tray_change/answer");
        assert_eq!(answer.content, output.content);
    }
}
