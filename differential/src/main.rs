//! The proved library against the other implementation of document 01, with
//! requests (i) to (vii) of document 02.

mod answers;
mod batches;
mod below;
mod bottles;
#[cfg(not(feature = "stand-in"))]
mod c_interface;
mod canary;
mod case;
mod charts;
#[cfg(feature = "stand-in")]
mod faults;
mod finer;
mod floats;
mod ions;
mod joins;
mod library;
mod numbers;
mod offers;
mod on_a_range;
mod on_an_edge;
mod on_the_limit;
mod outcome;
mod parts;
mod random;
mod readings;
mod records;
mod sample_numbers;
mod shrink;
#[cfg(feature = "stand-in")]
mod stand_in;
mod strength;
mod validation;

#[cfg(not(feature = "stand-in"))]
use c_interface::Proved as Asked;
use case::Mismatch;
use parts::{part, Part, Report, PARTS};
#[cfg(feature = "stand-in")]
use stand_in::StandIn as Asked;
use std::process::ExitCode;
use std::time::{SystemTime, UNIX_EPOCH};

const USAGE: &str = "\
usage: differential [--parts NAME,NAME,..] [SEED]
       differential --faults [SEED]   (in the build with the feature stand-in)
parts: records, readings, offers, charts, batches, joins, finer, validation";

/// What the command line asks for.
struct Request {
    faults: bool,
    parts: Vec<&'static Part>,
    seed: u32,
}

fn main() -> ExitCode {
    let arguments: Vec<String> = std::env::args().skip(1).collect();
    let arguments: Vec<&str> = arguments.iter().map(String::as_str).collect();
    let Some(request) = request(&arguments) else {
        eprintln!("{USAGE}");
        return ExitCode::from(2);
    };
    println!("seed {}", request.seed);
    let fine = if request.faults {
        find_faults(request.seed)
    } else {
        request.parts.iter().all(|part| compare(part, request.seed))
    };
    if fine {
        ExitCode::SUCCESS
    } else {
        ExitCode::FAILURE
    }
}

fn request(arguments: &[&str]) -> Option<Request> {
    let (faults, names, rest) = match arguments {
        ["--faults", rest @ ..] if cfg!(feature = "stand-in") => (true, None, rest),
        ["--parts", names, rest @ ..] => (false, Some(*names), rest),
        rest => (false, None, rest),
    };
    let parts = match names {
        Some(names) => names.split(',').map(part).collect::<Option<_>>()?,
        None => PARTS.iter().filter_map(|known| part(known.name)).collect(),
    };
    let seed = match rest {
        [] => seed_from_the_clock(),
        [seed] => seed.parse().ok()?,
        _ => return None,
    };
    Some(Request {
        faults,
        parts,
        seed,
    })
}

/// A seed short enough to be typed again.
fn seed_from_the_clock() -> u32 {
    let since = SystemTime::now().duration_since(UNIX_EPOCH);
    since.map_or(0, |since| (since.as_micros() % 1_000_000_000) as u32)
}

/// Runs a part and tells what came of it; true where nothing differs.
fn compare(part: &Part, seed: u32) -> bool {
    let report = part.run(&Asked, seed);
    println!("{}", line(part.name, &report));
    for note in &report.notes {
        println!("  {note}");
    }
    if let Some(mismatch) = &report.mismatch {
        print_mismatch(mismatch);
        println!("seed:      {seed}");
        println!("again:     differential --parts {} {seed}", part.name);
    }
    report.mismatch.is_none()
}

fn line(name: &str, report: &Report) -> String {
    let result = match report.mismatch {
        None => "no mismatch",
        Some(_) => "MISMATCH",
    };
    let seconds = report.time.as_secs_f64();
    format!(
        "{name:<10} {:>9} cases {seconds:>6.1} s  {result}",
        report.cases
    )
}

fn print_mismatch(mismatch: &Mismatch) {
    println!("input:     {}", mismatch.input);
    println!("library:   {}", mismatch.difference.library);
    println!("reference: {}", mismatch.difference.reference);
}

/// Runs the part of every fault; true where each finds its own.
#[cfg(feature = "stand-in")]
fn find_faults(seed: u32) -> bool {
    let mut missed = Vec::new();
    for &(fault, name) in faults::FAULTS {
        let report = part(name).map(|part| part.run(&faults::Faulty(fault), seed));
        let Some(report) = report else { return false };
        println!("{fault:?}\n{}", line(name, &report));
        match &report.mismatch {
            Some(mismatch) => print_mismatch(mismatch),
            None => missed.push(fault),
        }
    }
    let all = faults::FAULTS.len();
    println!("{} of {all} faults found", all - missed.len());
    if !missed.is_empty() {
        println!("not found: {missed:?}");
    }
    missed.is_empty()
}

/// Without the stand-in there is nothing to put faults into.
#[cfg(not(feature = "stand-in"))]
fn find_faults(_seed: u32) -> bool {
    false
}
