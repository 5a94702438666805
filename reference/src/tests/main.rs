//! The tests of the reference. Prints what failed; the last line is
//! "N passed, M failed". Arguments choose tests by a part of their name.

mod checker;
mod games;
mod generator;
mod history;
mod marked;
mod one_way;
mod reader;
mod replies;
mod runner;
mod searches;
mod sizes;
mod whole;

use std::panic::{catch_unwind, AssertUnwindSafe};
use std::sync::atomic::{AtomicUsize, Ordering};
use std::time::Instant;

pub type Test = (&'static str, fn());

fn main() {
    let wanted: Vec<String> = std::env::args().skip(1).collect();
    let lists = [
        marked::TESTS,
        reader::TESTS,
        checker::TESTS,
        one_way::TESTS,
        whole::TESTS,
        games::TESTS,
        history::TESTS,
        sizes::TESTS,
        replies::TESTS,
        searches::TESTS,
        generator::TESTS,
        runner::TESTS,
    ];
    std::panic::set_hook(Box::new(|what| println!("       {what}")));
    let mut tests = lists.concat();
    tests.retain(|(name, _)| wanted.is_empty() || wanted.iter().any(|w| name.contains(w.as_str())));
    let failed = failures(&tests);
    println!("{} passed, {failed} failed", tests.len() - failed);
    std::process::exit((failed != 0) as i32);
}

/// How many of the tests fail, run two at a time.
fn failures(tests: &[Test]) -> usize {
    let next = AtomicUsize::new(0);
    let run = || {
        let mine = || tests.get(next.fetch_add(1, Ordering::Relaxed));
        std::iter::from_fn(mine).filter(|test| !passes(test)).count()
    };
    std::thread::scope(|scope| {
        let other = scope.spawn(run);
        run() + other.join().expect("what panics in a test is caught")
    })
}

fn passes(&(name, test): &Test) -> bool {
    let begin = Instant::now();
    let passed = catch_unwind(AssertUnwindSafe(test)).is_ok();
    let word = if passed { "ok" } else { "FAILED" };
    println!("{word:6} {:6.2}s  {name}", begin.elapsed().as_secs_f32());
    passed
}
