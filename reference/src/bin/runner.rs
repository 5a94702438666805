//! The differential runner as a program.

use reference::generate::proposals::ProposalKind;
use reference::generate::sweeps::Sweep;
use reference::generate::ItemKind;
use reference::runner::{run, Operation, Options};
use std::time::Duration;

const USAGE: &str = "\
usage: reference-runner OPERATION --seed S --count N [options] -- COMMAND [ARGUMENT...]
OPERATION  read, compare or check: COMMAND is an adapter, started once
           program: COMMAND is a program like `compare`, started for every task
           compare-one-way, check-one-way, program-one-way: by the one-way game
options    --first N            number of the first item, default 0
           --kind KIND          items of one kind only
           --task FILE          this task in every case
           --sweep SORT         check: every cut (cuts) or every other value of every byte
                                (bytes) of the given task's own certificate
           --tables limit       compare: tables at the limit between the library's ways, or
                                an entry beside it
           --proposal KIND      check: certificates of one kind only, as printed
           --require KEY:COUNT  at least COUNT cases under KEY, as printed; repeatable
           --fault FIELD[:N]    alter FIELD in the first answer that has it, from item N on
           --save DIR           where mismatches are saved, default the current directory
           --timeout SECONDS    for one answer, default 60
exit       0 all the same, 1 a mismatch or a missing count, 2 cannot run";

fn main() {
    let arguments: Vec<String> = std::env::args().skip(1).collect();
    let options = options(&arguments).unwrap_or_else(|message| stop(&message));
    let outcome = run(options).unwrap_or_else(|message| stop(&message));
    print!("{}", outcome.tally.table());
    for line in &outcome.missing {
        println!("TOO FEW {line}");
    }
    let word = if outcome.is_good() { "SAME" } else { "NOT GOOD" };
    let (cases, mismatches) = (outcome.cases, outcome.mismatches);
    let missing = outcome.missing.len();
    println!("{word}: {cases} cases, {mismatches} mismatches, {missing} counts too small");
    std::process::exit(!outcome.is_good() as i32);
}

fn stop(message: &str) -> ! {
    eprintln!("{message}");
    std::process::exit(2)
}

fn number(text: &str) -> Result<u64, String> {
    text.parse().map_err(|_| format!("{text} is no number"))
}

/// "key:count" with colons in the key.
fn key_and_count(text: &str) -> Result<(String, u64), String> {
    let (key, count) = text.rsplit_once(':').ok_or(format!("{text} has no count"))?;
    Ok((key.to_string(), number(count)?))
}

fn fault(operation: Operation, text: &str) -> Result<(String, u64), String> {
    let (field, from) = match text.split_once(':') {
        Some((field, from)) => (field, number(from)?),
        None => (text, 0),
    };
    if !operation.fault_fields().contains(&field) {
        return Err(format!("{} has {:?}", operation.name(), operation.fault_fields()));
    }
    Ok((field.to_string(), from))
}

fn options(arguments: &[String]) -> Result<Options, String> {
    let end = arguments.iter().position(|a| a == "--").ok_or(USAGE)?;
    let (own, command) = (&arguments[..end], &arguments[end + 1..]);
    let (name, flags) = own.split_first().ok_or(USAGE)?;
    let operation = Operation::ALL.into_iter().find(|o| o.name() == *name).ok_or(USAGE)?;
    let mut options = Options {
        operation,
        seed: 1,
        count: 1000,
        first: 0,
        kind: None,
        task: None,
        sweep: None,
        at_limit: false,
        proposal: None,
        command: command.to_vec(),
        fault: None,
        required: Vec::new(),
        save: ".".into(),
        timeout: Duration::from_secs(60),
    };
    for flag in flags.chunks(2) {
        let [name, value] = flag else {
            return Err(USAGE.to_string());
        };
        set(&mut options, name, value)?;
    }
    Ok(options)
}

fn set(options: &mut Options, name: &str, value: &str) -> Result<(), String> {
    match name {
        "--seed" => options.seed = number(value)?,
        "--count" => options.count = number(value)?,
        "--first" => options.first = number(value)?,
        "--kind" => options.kind = Some(ItemKind::from_name(value).ok_or(USAGE)?),
        "--task" => {
            let bytes = std::fs::read(value).map_err(|e| format!("cannot read {value}: {e}"))?;
            options.task = Some(bytes);
        }
        "--sweep" => options.sweep = Some(Sweep::from_name(value).ok_or(USAGE)?),
        "--tables" if value == "limit" => options.at_limit = true,
        "--proposal" => {
            options.proposal = Some(ProposalKind::from_name(value).ok_or(USAGE)?);
        }
        "--require" => options.required.push(key_and_count(value)?),
        "--fault" => options.fault = Some(fault(options.operation, value)?),
        "--save" => options.save = value.into(),
        "--timeout" => options.timeout = Duration::from_secs(number(value)?),
        _ => return Err(USAGE.to_string()),
    }
    Ok(())
}
