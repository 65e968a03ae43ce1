//! Plays the same sessions on libpawdoku and on the Rust original, and compares every answer, every board, every
//! byte of memory and every record.
//!
//!     compare quick|full [SEED] [--plant NAME]
//!     compare planted [SEED]
//!     compare stored FILE
//!
//! The first ends with 0 where nothing differs and every number that can occur occurred; the second plants errors
//! into the library's answers, one after the other, and ends with 0 where each is found; the third
//! writes a sample of what the original answered into a file. Else they end with 1.
#![deny(unsafe_code)]

mod beyond;
mod bytes;
mod call;
mod directed;
mod grid;
mod lines;
mod list;
mod ours;
mod pair;
mod plant;
mod players;
mod records;
mod report;
mod rng;
mod run;
mod script;
mod stored;
mod theirs;

use plant::Plant;
use run::{Form, Run, find_planted};
use std::process::ExitCode;

fn main() -> ExitCode {
    let arguments: Vec<String> = std::env::args().skip(1).collect();
    let words: Vec<&str> = arguments.iter().map(String::as_str).collect();
    let well = match words.as_slice() {
        ["planted", rest @ ..] => options(rest).map(|(seed, _)| find_planted(seed)),
        ["quick", rest @ ..] => options(rest).map(|(seed, plant)| compare(Form::QUICK, seed, plant)),
        ["full", rest @ ..] => options(rest).map(|(seed, plant)| compare(Form::FULL, seed, plant)),
        ["stored", file] => Some(store(file)),
        _ => None,
    };
    match well {
        Some(true) => ExitCode::SUCCESS,
        Some(false) => ExitCode::FAILURE,
        None => {
            eprintln!("compare quick|full [SEED] [--plant NAME]\ncompare planted [SEED]\ncompare stored FILE");
            eprintln!("errors to plant: {}", Plant::ALL.map(|(name, _)| name).join(" "));
            ExitCode::from(2)
        }
    }
}

fn compare(form: Form, seed: u64, plant: Plant) -> bool {
    let mut run = Run::new(form, seed, plant, true);
    run.directed();
    run.random();
    run.summary()
}

/// Writes the stored answers: the directed sessions and a sample of random ones. Nothing is written where anything differs.
fn store(file: &str) -> bool {
    stored::keep();
    if !compare(Form::STORED, 1, Plant::Nothing) {
        return false;
    }
    match std::fs::write(file, stored::kept()) {
        Ok(()) => true,
        Err(error) => {
            eprintln!("{file}: {error}");
            false
        }
    }
}

/// The seed and the error to plant.
fn options(words: &[&str]) -> Option<(u64, Plant)> {
    match words {
        [] => Some((1, Plant::Nothing)),
        [seed] => Some((seed.parse().ok()?, Plant::Nothing)),
        ["--plant", name] => Some((1, Plant::named(name)?)),
        [seed, "--plant", name] => Some((seed.parse().ok()?, Plant::named(name)?)),
        _ => None,
    }
}
