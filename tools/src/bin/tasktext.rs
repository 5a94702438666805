//! `tasktext bytes` turns a task's text into its bytes, `tasktext text` its bytes into text.
use std::env;
use std::io::{self, Read};
use std::process::ExitCode;
use tools::{program, text};

fn input() -> Result<Vec<u8>, String> {
    let mut input = Vec::new();
    match io::stdin().read_to_end(&mut input) {
        Ok(_) => Ok(input),
        Err(error) => Err(format!("standard input cannot be read: {error}")),
    }
}

fn converted() -> Result<Vec<u8>, String> {
    let arguments: Vec<_> = env::args_os().skip(1).collect();
    let direction = match &arguments[..] {
        [one] => one.to_str().unwrap_or(""),
        _ => "",
    };
    match direction {
        "bytes" => text::to_bytes(&input()?).map_err(|problem| problem.to_string()),
        "text" => text::from_bytes(&input()?)
            .map(String::into_bytes)
            .map_err(|refusal| refusal.to_string()),
        _ => Err("use: tasktext bytes < TEXT > TASK, or tasktext text < TASK > TEXT".into()),
    }
}

fn main() -> ExitCode {
    program::finish(converted())
}
