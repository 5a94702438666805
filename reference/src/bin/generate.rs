//! The generator as a program.

use reference::frames::write_frame;
use reference::generate::families::{family, FAMILIES};
use reference::generate::histories::stating;
use reference::generate::questions::{about_items, about_task, Questions};
use reference::generate::quota::{measure, measure_proposals, quota_table};
use reference::generate::{item, item_of_kind, ItemKind};
use reference::model::Task;
use reference::rules::Rules;
use reference::task;
use std::io::Write;

const USAGE: &str = "\
usage: reference-generate item SEED INDEX [KIND]    one item's bytes to standard output
       reference-generate items SEED COUNT DIR      items 0 to COUNT - 1 as files
       reference-generate family NAME SIZE... [--history N]
                                                    a family's task to standard output,
                                                    with a history record of size N
       reference-generate families                  names and sizes of the families
       reference-generate quota SEED COUNT          counts and the quota table
       reference-generate proposals SEED COUNT      what comes of proposed certificates
       reference-generate quota-one-way SEED COUNT      the same two in the one-way game
       reference-generate proposals-one-way SEED COUNT
       reference-generate questions SEED COUNT [TASKFILE]
                                                    requests for first replies, about items
                                                    or the task in TASKFILE, as frames
KIND is small, near, chain, cover, guess, overwrite, reach, blank or damaged.";

fn main() {
    let arguments: Vec<String> = std::env::args().skip(1).collect();
    let words: Vec<&str> = arguments.iter().map(|a| a.as_str()).collect();
    if let Err(message) = run(&words) {
        eprintln!("{message}");
        std::process::exit(2);
    }
}

fn number(text: &str) -> Result<u64, String> {
    text.parse().map_err(|_| format!("{text} is no number"))
}

fn put(bytes: &[u8]) -> Result<(), String> {
    std::io::stdout().write_all(bytes).map_err(|e| e.to_string())
}

fn run(words: &[&str]) -> Result<(), String> {
    match words {
        ["item", seed, index] => put(&item(number(seed)?, number(index)?).bytes),
        ["item", seed, index, kind] => {
            let kind = ItemKind::from_name(kind).ok_or(USAGE)?;
            put(&item_of_kind(number(seed)?, number(index)?, kind).bytes)
        }
        ["items", seed, count, directory] => items(number(seed)?, number(count)?, directory),
        ["family", name, sizes @ .., "--history", size] => {
            let size = size.parse().map_err(|_| format!("{size} is no size"))?;
            put(&task::write(&stating(sized_family(name, sizes)?, size)?))
        }
        ["family", name, sizes @ ..] => put(&task::write(&sized_family(name, sizes)?)),
        ["families"] => {
            for (name, sizes, meaning) in FAMILIES {
                println!("{name:<14} {sizes:<4} {meaning}");
            }
            Ok(())
        }
        ["questions", seed, count] => {
            put_questions(&about_items(number(seed)?, number(count)? as usize))
        }
        ["questions", seed, count, file] => {
            let task = std::fs::read(file).map_err(|e| format!("cannot read {file}: {e}"))?;
            put_questions(&about_task(number(seed)?, number(count)? as usize, task)?)
        }
        [word, seed, count] => measured(word, seed, count),
        _ => Err(USAGE.to_string()),
    }
}

fn sized_family(name: &str, sizes: &[&str]) -> Result<Task, String> {
    let sizes: Result<Vec<u64>, String> = sizes.iter().map(|s| number(s)).collect();
    let sizes: Vec<usize> = sizes?.into_iter().map(|s| s as usize).collect();
    family(name, &sizes)
}

/// The counts of one game.
fn measured(word: &str, seed: &str, count: &str) -> Result<(), String> {
    for rules in Rules::ALL {
        if word == rules.word_for("quota") {
            return quota(rules, number(seed)?, number(count)?);
        }
        if word == rules.word_for("proposals") {
            print!("{}", measure_proposals(rules, number(seed)?, number(count)?).table());
            return Ok(());
        }
    }
    Err(USAGE.to_string())
}

fn items(seed: u64, count: u64, directory: &str) -> Result<(), String> {
    std::fs::create_dir_all(directory).map_err(|e| e.to_string())?;
    for index in 0..count {
        let made = item(seed, index);
        let path = format!("{directory}/{index:06}-{}.task", made.kind.name());
        std::fs::write(path, made.bytes).map_err(|e| e.to_string())?;
    }
    Ok(())
}

/// The frames to standard output, the counts to standard error.
fn put_questions(questions: &Questions) -> Result<(), String> {
    let mut frames = Vec::new();
    for request in &questions.requests {
        write_frame(&mut frames, &request.payload()).map_err(|e| e.to_string())?;
    }
    eprint!("{}", questions.tally.table());
    put(&frames)
}

fn quota(rules: Rules, seed: u64, count: u64) -> Result<(), String> {
    let tally = measure(rules, seed, count);
    print!("{}\n", tally.table());
    let (table, met) = quota_table(rules, &tally);
    print!("{table}");
    if met {
        Ok(())
    } else {
        Err("quotas for 20,000 items are missed".to_string())
    }
}
