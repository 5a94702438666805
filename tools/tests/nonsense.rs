//! Input that makes no sense gets a message and exit status 1.
use crate::programs::{self, EXPLAIN, TASKTEXT};
use crate::random::Random;
use crate::tally::{same, Tally};
use std::process::{Command, Stdio};
use tools::{explain, task, text};

const SAMPLE: &str = "samples/case-02.task";
const STRINGS: usize = 20_000;

pub fn run(tally: &mut Tally, tasks: &[Vec<u8>]) -> Result<(), String> {
    calls(tally)?;
    tally.check("output that cannot be written", unwritable());
    tally.check("bytes at random", random_bytes(tasks));
    Ok(())
}

#[rustfmt::skip]
fn calls(tally: &mut Tally) -> Result<(), String> {
    let empty = programs::file("empty", b"")?;
    let noise = programs::file("noise", &[17; 40])?;
    let calls: [(&str, &[&str], &str); 12] = [
        (TASKTEXT, &[], "use: tasktext"),
        (TASKTEXT, &["words"], "use: tasktext"),
        (TASKTEXT, &["text", "bytes"], "use: tasktext"),
        (TASKTEXT, &["text"], "REFUSED 2 at byte 0"),
        (TASKTEXT, &["bytes"], "line 1: expected `left`"),
        (EXPLAIN, &[], "use: explain"),
        (EXPLAIN, &[SAMPLE], "use: explain"),
        (EXPLAIN, &["no/such/file", &empty], "no/such/file cannot be read"),
        (EXPLAIN, &[SAMPLE, "samples"], "samples cannot be read"),
        (EXPLAIN, &[&noise, &empty], "the task is no good: REFUSED 1 at byte 0: expected"),
        (EXPLAIN, &[SAMPLE, &empty], "the certificate is no good: REFUSED 14 at byte 0: expected"),
        (EXPLAIN, &[SAMPLE, &noise], "the certificate is no good: REFUSED 13 at byte 0: expected"),
    ];
    for (program, arguments, expected) in calls {
        let name = format!("{program} {}", arguments.join(" "));
        tally.check(&name, refused(program, arguments, expected));
    }
    Ok(())
}

fn refused(program: &str, arguments: &[&str], expected: &str) -> Result<(), String> {
    let printed = programs::run(program, arguments, b"")?;
    same("the status", printed.status, Some(1))?;
    same("the output", printed.out.len(), 0)?;
    let plain = printed.errors.starts_with(expected) && printed.errors.lines().count() == 1;
    if plain {
        Ok(())
    } else {
        Err(format!("the message is {:?}", printed.errors))
    }
}

fn unwritable() -> Result<(), String> {
    let open = |path: &str, writing: bool| {
        let mut options = std::fs::OpenOptions::new();
        let file = options.read(!writing).write(writing).open(path);
        file.map_err(|error| format!("{path}: {error}"))
    };
    let output = Command::new(TASKTEXT)
        .arg("text")
        .stdin(open(SAMPLE, false)?)
        .stdout(open("/dev/full", true)?)
        .stderr(Stdio::piped())
        .output()
        .map_err(|error| error.to_string())?;
    same("the status", output.status.code(), Some(1))
}

/// Nothing is asked of the answers but that there is one.
fn random_bytes(tasks: &[Vec<u8>]) -> Result<(), String> {
    let mut random = Random::new(5);
    let tasks: Vec<_> = tasks
        .iter()
        .filter_map(|bytes| task::read(bytes).ok())
        .collect();
    for _ in 0..STRINGS {
        let length = random.below(60);
        let limit = [256, 20, 3][random.below(3)];
        let mut bytes: Vec<u8> = (0..length).map(|_| random.below(limit) as u8).collect();
        let _ = text::from_bytes(&bytes);
        let _ = text::to_bytes(&bytes);
        for kind in 16..20 {
            if let Some(first) = bytes.first_mut() {
                *first = kind;
            }
            let _ = explain::explain(&tasks[random.below(tasks.len())].0, &bytes);
        }
    }
    Ok(())
}
