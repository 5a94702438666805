//! Measures one comparison in a process of its own, so that its peak of memory is its own too. Prints `name value` lines.
//!
//!     measure GAME count TASK                    what the task takes, by the reference
//!     measure GAME library TASK ENTRIES LENGTH   nuldopa_compare with a table of ENTRIES entries and LENGTH bytes of
//!                                                certificate
//!     measure GAME baseline TASK                 the reference's heap baseline
//!     measure GAME check TASK                    nuldopa_check of the task's own certificate
//!
//! GAME is `equality` or `one-way`, whose functions are then called.
mod cost;
mod pairs;

use nuldopa::{boundary, Game};
use reference::baseline;
use reference::compare::{Solution, ENTRY_LENGTH};
use reference::rules::Rules;
use reference::task;
use reference::ways::Way;

/// A game as the reference and as the library know it.
#[derive(Clone, Copy)]
struct Played {
    rules: Rules,
    game: Game,
}

fn played(name: &str) -> Played {
    match name {
        "equality" => Played { rules: Rules::TWO_WAY, game: Game::Equality },
        "one-way" => Played { rules: Rules::ONE_WAY, game: Game::OneWay },
        _ => panic!("the games are equality and one-way"),
    }
}

/// Short comparisons are repeated for as long as this, and the least time counts.
const LEAST_SECONDS: f64 = 0.2;

/// The least time of one call, in seconds on the processor.
fn least_seconds(mut call: impl FnMut()) -> f64 {
    let begin = cost::cpu_seconds();
    let mut least = f64::INFINITY;
    loop {
        let before = cost::cpu_seconds();
        call();
        let after = cost::cpu_seconds();
        least = least.min(after - before);
        if after - begin >= LEAST_SECONDS {
            return least;
        }
    }
}

/// FNV-1a, to tell whether two processes have the same bytes.
fn digest(parts: [&[u8]; 2]) -> u64 {
    let bytes = parts.into_iter().flatten();
    bytes.fold(0xcbf2_9ce4_8422_2325, |hash, &byte| (hash ^ byte as u64).wrapping_mul(0x0100_0000_01b3))
}

fn solve(played: Played, bytes: &[u8]) -> Solution {
    baseline::solve(played.rules, &task::read(bytes).expect("a task that is not refused"))
}

fn count(played: Played, bytes: &[u8]) {
    let solution = solve(played, bytes);
    let mut table = vec![0; solution.entries.len() * ENTRY_LENGTH];
    let mut certificate = vec![0; solution.certificate.len()];
    solution.deliver(&mut table, &mut certificate);
    let task = task::read(bytes).expect("read before");
    let tried = pairs::tried(played.rules, &task, &solution.entries);
    println!("way {}", Way::of(&task, table.len()).name());
    println!("positions {}", solution.entries.len());
    println!("rounds {}", solution.rounds);
    println!("length {}", certificate.len());
    println!("passes {}", tried.passes);
    println!("exploring {}", tried.exploring);
    println!("ranking {}", tried.ranking);
    println!("digest {:016x}", digest([&table, &certificate]));
}

fn library(played: Played, bytes: &[u8], entries: usize, length: usize) {
    // Not zeros, so that the system has handed the pages out before the first call.
    let mut table = vec![1; entries * ENTRY_LENGTH];
    let mut certificate = vec![1; length];
    let seconds = least_seconds(|| {
        let answer = boundary::compare(played.game, bytes, &mut table, &mut certificate);
        assert_eq!(answer.refusal, 0);
    });
    println!("seconds {seconds:.9}");
    println!("kilobytes {}", cost::peak_kilobytes());
    println!("digest {:016x}", digest([&table, &certificate]));
}

fn heap(played: Played, bytes: &[u8]) {
    let seconds = least_seconds(|| assert!(!solve(played, bytes).certificate.is_empty()));
    println!("seconds {seconds:.9}");
    println!("kilobytes {}", cost::peak_kilobytes());
}

fn check(played: Played, bytes: &[u8]) {
    let solution = solve(played, bytes);
    let mut certificate = vec![0; solution.certificate.len()];
    solution.deliver(&mut vec![0; solution.entries.len() * ENTRY_LENGTH], &mut certificate);
    let seconds = least_seconds(|| assert_eq!(boundary::check(played.game, bytes, &certificate).refusal, 0));
    let records = nuldopa::records(&certificate).count();
    println!("records {records}");
    println!("seconds {seconds:.6}");
    println!("nanoseconds_a_record {:.0}", seconds * 1e9 / records as f64);
}

fn main() {
    let arguments: Vec<String> = std::env::args().skip(1).collect();
    let words: Vec<&str> = arguments.iter().map(|a| a.as_str()).collect();
    let file = |name: &str| std::fs::read(name).expect("the task file");
    let number = |text: &str| text.parse().expect("a number");
    match words[..] {
        [game, "count", name] => count(played(game), &file(name)),
        [game, "library", name, entries, length] => {
            library(played(game), &file(name), number(entries), number(length))
        }
        [game, "baseline", name] => heap(played(game), &file(name)),
        [game, "check", name] => check(played(game), &file(name)),
        _ => panic!("measure GAME count, library, baseline or check"),
    }
}
