//! Prints what the program `compare` prints, for the task file named on the command line, and writes the certificate's bytes
//! to a second file where one is named; after the word `--one-way` what `compare_one_way` prints. Builds in the repository's
//! folder, after `.ci/build exports_c`, with
//!
//!     rustc --edition 2021 -O -L target/staticlib examples/compare.rs -o target/compare-rust
//!
//! A cargo project has the wrapper as a dependency instead of the next three lines: `nuldopa = { path = "wrapper" }`.
#[allow(dead_code, unused_imports)]
#[path = "../wrapper/src/lib.rs"]
mod nuldopa;

use nuldopa::{records, Game, ENTRY_LENGTH};
use std::process::ExitCode;
use std::{env, fs};

/// As much as `compare` lends, whose buffer a long certificate outgrows; `most_certificate_bytes` of the table's length would be
/// enough for each.
const TASK_BYTES: usize = 4096;
const ENTRIES: usize = 4000;
const CERTIFICATE_BYTES: usize = 64_000;

/// Prints the answer and returns the certificate, which is empty after a refusal.
fn answer(game: Game, task: &[u8]) -> Vec<u8> {
    let mut table = [0; ENTRIES * ENTRY_LENGTH];
    let mut certificate = vec![0; CERTIFICATE_BYTES];
    match game.compare(task, &mut table, &mut certificate) {
        Err(refusal) => {
            println!("REFUSED {}", refusal.number());
            certificate.clear();
        }
        Ok(found) => {
            certificate.truncate(found.length);
            println!("{} {} {}", found.verdict, found.positions, found.rounds);
            records(&certificate).for_each(|record| println!("{record}"));
        }
    }
    certificate
}

fn run(game: Game, task_file: &str, certificate_file: Option<&String>) -> Result<(), String> {
    let task = fs::read(task_file).map_err(|error| format!("{task_file} cannot be read: {error}"))?;
    if task.len() > TASK_BYTES {
        println!("TOO LONG");
        return Ok(());
    }
    let certificate = answer(game, &task);
    let Some(file) = certificate_file else {
        return Ok(());
    };
    fs::write(file, certificate).map_err(|error| format!("{file} cannot be written: {error}"))
}

fn main() -> ExitCode {
    let arguments: Vec<String> = env::args().skip(1).collect();
    let (game, files) = match &arguments[..] {
        [option, files @ ..] if option == "--one-way" => (Game::OneWay, files),
        files => (Game::Equality, files),
    };
    let outcome = match files {
        [task] => run(game, task, None),
        [task, certificate] => run(game, task, Some(certificate)),
        _ => Err("usage: compare-rust [--one-way] TASKFILE [CERTIFICATEFILE]".into()),
    };
    match outcome {
        Ok(()) => ExitCode::SUCCESS,
        Err(message) => {
            eprintln!("{message}");
            ExitCode::FAILURE
        }
    }
}
