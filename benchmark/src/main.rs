//! Measures the proved library beside an idiomatic implementation of the same
//! checks in safe Rust: one process, the same inputs, the same buffers.
//!
//! `benchmark` prints a table of times, the least of several rounds.
//! `benchmark once SIDE ROW` runs one side of one row once, for a tool that
//! counts instructions.

mod floors;
mod inputs;
mod numbers;
mod plain;
mod proved;
mod rows;

use rows::{Row, GROUPS};
use std::time::{Duration, Instant};

const ROUNDS: usize = 100;

fn timed(run: &mut dyn FnMut() -> u64) -> Duration {
    let start = Instant::now();
    std::hint::black_box(run());
    start.elapsed()
}

/// A row with the least time that each side took so far.
struct Measured {
    row: Row,
    proved: Duration,
    plain: Duration,
}

impl Measured {
    fn new(row: Row) -> Measured {
        Measured {
            row,
            proved: Duration::MAX,
            plain: Duration::MAX,
        }
    }

    fn run(&mut self) {
        self.proved = self.proved.min(timed(&mut self.row.proved));
        self.plain = self.plain.min(timed(&mut self.row.plain));
    }

    fn print(&self) {
        println!(
            "{:<34}{:>12.1}{:>12.1}{:>8.2}",
            self.row.name,
            per_piece(self.proved, self.row.pieces),
            per_piece(self.plain, self.row.pieces),
            self.proved.as_secs_f64() / self.plain.as_secs_f64()
        );
    }
}

fn per_piece(time: Duration, pieces: usize) -> f64 {
    time.as_secs_f64() * 1e9 / pieces as f64
}

/// The sides and the rows take turns, so that a slow moment of the machine
/// meets all of them, and each has its share of the quiet ones.
fn measured(rows: Vec<Row>) -> Vec<Measured> {
    let mut rows: Vec<Measured> = rows.into_iter().map(Measured::new).collect();
    for _ in 0..ROUNDS {
        rows.iter_mut().for_each(Measured::run);
    }
    rows
}

/// A group's rows are made only when the group before is measured, so that a new
/// group moves no older row.
fn print_table() {
    let groups = GROUPS.into_iter();
    let rows: Vec<Measured> = groups.flat_map(|rows| measured(rows())).collect();
    println!(
        "{:<34}{:>12}{:>12}{:>8}",
        "", "proved ns", "Rust ns", "ratio"
    );
    rows.iter().for_each(Measured::print);
}

fn run_once(side: &str, name: &str) {
    let mut row = GROUPS
        .into_iter()
        .flat_map(|rows| rows())
        .find(|row| row.key == name)
        .unwrap_or_else(|| panic!("no row {name}"));
    match side {
        "proved" => std::hint::black_box((row.proved)()),
        "plain" => std::hint::black_box((row.plain)()),
        _ => 0,
    };
}

fn main() {
    let words: Vec<String> = std::env::args().skip(1).collect();
    match words.iter().map(String::as_str).collect::<Vec<_>>()[..] {
        ["once", side, name] => run_once(side, name),
        [] => print_table(),
        _ => eprintln!("benchmark, or benchmark once proved|plain|none ROW"),
    }
}
