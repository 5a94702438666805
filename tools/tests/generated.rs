//! Generated tasks, good and damaged: the same reading as the reference's, and text there and back.
use crate::adapter::Adapter;
use crate::programs::{self, Printed, TASKTEXT};
use crate::random::Random;
use crate::tally::{same, Tally};
use std::fs;
use tools::certificate::Position;
use tools::model::{Model, Task};
use tools::{task, text};

const COUNT: usize = 10_000;
/// So many of each sort go through the program too; starting it for all would take too long.
const STARTED: usize = 300;
const ALTERED: usize = 20_000;
/// Every refusal of a record is met so often at least.
const LEAST: usize = 50;
const REFUSALS: [u8; 11] = [1, 2, 3, 4, 5, 6, 7, 8, 9, 10, 15];
/// And so often a task is read that states a history size.
const LEAST_STATED: usize = 500;

/// The generated tasks' bytes, in the order of their numbers.
pub fn tasks() -> Result<Vec<Vec<u8>>, String> {
    let folder = programs::folder()?.join("items");
    // It may be absent; what stands there from an earlier run must not be counted.
    let _ = fs::remove_dir_all(&folder);
    let into = folder.to_string_lossy();
    let arguments = ["items", "5", &COUNT.to_string(), &into];
    programs::run("target/reference/reference-generate", &arguments, b"")?;
    let entries = fs::read_dir(&folder).map_err(|error| format!("{into}: {error}"))?;
    let mut paths: Vec<_> = entries.flatten().map(|entry| entry.path()).collect();
    paths.sort();
    let tasks = paths.iter().map(|path| programs::read(path)).collect();
    // They are in memory now, and ten thousand small files take much room.
    let _ = fs::remove_dir_all(&folder);
    tasks
}

pub fn run(tally: &mut Tally, tasks: &[Vec<u8>]) -> Result<(), String> {
    tally.check("generated tasks", same("their count", tasks.len(), COUNT));
    let mut reference = Adapter::start()?;
    let mut counts = [0; 16];
    let outcome = tasks.iter().enumerate().try_for_each(|(number, bytes)| {
        let refusal =
            read_alike(&mut reference, bytes).map_err(|words| format!("task {number}: {words}"))?;
        counts[usize::from(refusal)] += 1;
        Ok(())
    });
    tally.check("read like the reference, and text there and back", outcome);
    reference.stop()?;
    let refused = REFUSALS.map(|number| counts[usize::from(number)]);
    println!(
        "{} tasks there and back, refusals 1 to 10 and 15: {refused:?}",
        counts[0]
    );
    let enough = refused.iter().all(|&count| count >= LEAST);
    tally.check(
        "every refusal is met often enough",
        same("that", enough, true),
    );
    tally.check("enough histories are stated", histories_stated(tasks));
    tally.check("the program on generated tasks", through_program(tasks));
    tally.check("altered texts", altered_texts(tasks));
    Ok(())
}

fn histories_stated(tasks: &[Vec<u8>]) -> Result<(), String> {
    let texts = tasks
        .iter()
        .filter_map(|bytes| text::from_bytes(bytes).ok());
    let stated = texts.filter(|text| text.contains("\nhistory ")).count();
    println!("{stated} of them state a history size");
    same("so many", stated >= LEAST_STATED, true)
}

/// The refusal, 0 if there is none.
fn read_alike(reference: &mut Adapter, bytes: &[u8]) -> Result<u8, String> {
    let (expected, dump) = reference.read(bytes)?;
    match task::read(bytes) {
        Ok((task, _)) => {
            same("the refusal", 0, expected)?;
            same("the task", dump_of(&task), dump)?;
            there_and_back(bytes)?;
            Ok(0)
        }
        Err(refusal) => {
            same("the refusal", u32::from(refusal.number), expected)?;
            let message = format!("REFUSED {expected} at byte {}", refusal.at);
            same("the message", refusal.to_string(), message)?;
            all_is_well_before(bytes, refusal.at)?;
            Ok(refusal.number)
        }
    }
}

/// What stands before a refused record is a task so far: only its end is missing, unless it was there.
fn all_is_well_before(bytes: &[u8], at: usize) -> Result<(), String> {
    match task::read(&bytes[..at]) {
        Ok(_) => Ok(()),
        Err(refusal) => same("the place", (refusal.number, refusal.at), (2, at)),
    }
}

fn there_and_back(bytes: &[u8]) -> Result<(), String> {
    let written = text::from_bytes(bytes).map_err(|refusal| refusal.to_string())?;
    let back = text::to_bytes(written.as_bytes()).map_err(|problem| problem.to_string())?;
    same("back in bytes", &back[..], bytes)?;
    let again = text::from_bytes(&back).map_err(|refusal| refusal.to_string())?;
    same("the text again", &again, &written)?;
    let unsorted = text::to_bytes(edges_reversed(&written).as_bytes());
    same("with the edges reversed", unsorted, Ok(back))
}

/// The same text with each model's edges in falling order.
fn edges_reversed(text: &str) -> String {
    let mut lines: Vec<&str> = text.lines().collect();
    let is_edge = |line: &&str| line.trim_start().starts_with("edge");
    let mut begin = 0;
    while begin < lines.len() {
        let run = lines[begin..]
            .iter()
            .take_while(|line| is_edge(line))
            .count();
        lines[begin..begin + run].reverse();
        begin += run + 1;
    }
    lines.join("\n")
}

/// A task as the reference dumps it.
fn dump_of(task: &Task) -> Vec<u8> {
    let mut dump = Vec::new();
    for Model {
        registers,
        start,
        states,
        edges,
    } in &task.models
    {
        dump.extend([*registers, states.len() as u8, *start, edges.len() as u8]);
        dump.extend(states.iter().flat_map(|state| [state.set.0, state.end]));
        dump.extend(edges.iter().flat_map(|edge| edge.body()));
    }
    dump.push(task.pairs.len() as u8);
    let Position {
        states,
        partners,
        history,
    } = Position::start(task);
    dump.extend(states);
    dump.extend(partners);
    dump.push(history);
    dump
}

fn through_program(tasks: &[Vec<u8>]) -> Result<(), String> {
    let readings: Vec<_> = tasks.iter().map(|bytes| text::from_bytes(bytes)).collect();
    let all = || tasks.iter().zip(&readings);
    for (bytes, reading) in all().filter(|item| item.1.is_err()).take(STARTED) {
        let message = reading
            .as_ref()
            .err()
            .map_or(String::new(), |refusal| refusal.to_string());
        let printed = programs::run(TASKTEXT, &["text"], bytes)?;
        same("a refusal", printed, Printed::failure(&message))?;
    }
    for (bytes, reading) in all().filter(|item| item.1.is_ok()).take(STARTED) {
        let written = reading.as_deref().unwrap_or_default().as_bytes();
        let printed = programs::run(TASKTEXT, &["text"], bytes)?;
        same("a text", printed, Printed::success(written))?;
        let printed = programs::run(TASKTEXT, &["bytes"], written)?;
        same("the bytes of a text", printed, Printed::success(bytes))?;
    }
    Ok(())
}

/// Texts with a word or a line altered give a task or a message that names one of their lines.
fn altered_texts(tasks: &[Vec<u8>]) -> Result<(), String> {
    let texts: Vec<String> = tasks
        .iter()
        .filter_map(|bytes| text::from_bytes(bytes).ok())
        .collect();
    let mut random = Random::new(3);
    let (mut good, mut refused) = (0, 0);
    for _ in 0..ALTERED {
        let altered = altered(&texts[random.below(texts.len())], &mut random);
        match text::to_bytes(altered.as_bytes()) {
            Ok(bytes) => {
                good += 1;
                there_and_back(&bytes)?;
            }
            Err(problem) => {
                let lines = altered.lines().count().max(1);
                same(
                    "a line that exists",
                    (1..=lines).contains(&problem.line),
                    true,
                )?;
                let number = problem.refusal.unwrap_or(4);
                same("a refusal of fields", REFUSALS[3..].contains(&number), true)?;
                refused += usize::from(problem.refusal.is_some());
            }
        }
    }
    println!("{ALTERED} altered texts: {good} are tasks, {refused} are refused with a number");
    Ok(())
}

fn altered(text: &str, random: &mut Random) -> String {
    const WORDS: [&str; 13] = [
        "left", "pair", "history", "edge", "known", "globally", "nothing", "0", "2", "7", "40",
        "999", "#",
    ];
    let mut lines: Vec<String> = text.lines().map(str::to_string).collect();
    let (one, other) = (random.below(lines.len()), random.below(lines.len()));
    match random.below(5) {
        0 => lines.swap(one, other),
        1 => drop(lines.remove(one)),
        2 => lines.insert(one, lines[other].clone()),
        _ => {
            let mut words: Vec<&str> = lines[one].split_whitespace().collect();
            let place = random.below(words.len());
            words[place] = WORDS[random.below(WORDS.len())];
            lines[one] = words.join(" ");
        }
    }
    lines.join("\n")
}
