//! The heap baseline as a program: a task file, and what it took.

use reference::baseline::solve;
use reference::rules::Rules;
use reference::task;
use std::fs::read_to_string;
use std::time::Instant;

fn main() {
    let (rules, file) = rules_and_file().unwrap_or_else(|| {
        eprintln!("usage: reference-baseline [--one-way] TASKFILE");
        std::process::exit(2)
    });
    let bytes = std::fs::read(&file).unwrap_or_else(|error| {
        eprintln!("cannot read {file}: {error}");
        std::process::exit(2)
    });
    let begin = Instant::now();
    match task::read(&bytes) {
        Err(refusal) => println!("REFUSED {}", refusal.0),
        Ok(task) => {
            let solution = solve(rules, &task);
            println!("verdict {}", solution.verdict.name());
            println!("positions {}", solution.entries.len());
            println!("rounds {}", solution.rounds);
            println!("certificate_bytes {}", solution.certificate.len());
        }
    }
    println!("wall_seconds {:.3}", begin.elapsed().as_secs_f64());
    println!("cpu_seconds {:.3}", cpu_seconds().unwrap_or(f64::NAN));
    println!("peak_kilobytes {}", peak_kilobytes().unwrap_or(0));
}

fn rules_and_file() -> Option<(Rules, String)> {
    let mut arguments = std::env::args().skip(1);
    let first = arguments.next()?;
    match first.as_str() {
        "--one-way" => Some((Rules::ONE_WAY, arguments.next()?)),
        _ => Some((Rules::TWO_WAY, first)),
    }
}

/// Time on the processor, from the scheduler's count in nanoseconds; where
/// there is none, from the clock ticks (100 a second on Linux).
fn cpu_seconds() -> Option<f64> {
    if let Ok(text) = read_to_string("/proc/self/schedstat") {
        let nanoseconds: f64 = text.split_whitespace().next()?.parse().ok()?;
        return Some(nanoseconds / 1e9);
    }
    let text = read_to_string("/proc/self/stat").ok()?;
    let fields: Vec<&str> = text.rsplit(')').next()?.split_whitespace().collect();
    let ticks = |place: usize| fields.get(place)?.parse::<f64>().ok();
    Some((ticks(11)? + ticks(12)?) / 100.0)
}

fn peak_kilobytes() -> Option<u64> {
    let text = read_to_string("/proc/self/status").ok()?;
    let line = text.lines().find(|l| l.starts_with("VmHWM:"))?;
    line.split_whitespace().nth(1)?.parse().ok()
}
