//! The tests of `tasktext` and `explain`, run by tests/tools from the repository's root. The reference must be built:
//! it makes the tasks and certificates, and its answers are compared with what is read here.
mod adapter;
mod certificates;
mod generated;
mod nonsense;
mod programs;
mod random;
mod samples;
mod tally;
mod texts;

use std::process::ExitCode;
use tally::Tally;

fn main() -> ExitCode {
    let mut tally = Tally::default();
    if let Err(words) = run(&mut tally) {
        tally.check("the tests run to their end", Err(words));
    }
    println!("{} passed, {} failed", tally.passed, tally.failed);
    if tally.failed == 0 {
        ExitCode::SUCCESS
    } else {
        ExitCode::FAILURE
    }
}

fn run(tally: &mut Tally) -> Result<(), String> {
    texts::run(tally);
    samples::run(tally)?;
    let tasks = generated::tasks()?;
    generated::run(tally, &tasks)?;
    certificates::run(tally, &tasks)?;
    nonsense::run(tally, &tasks)
}
