//! `explain TASK CERTIFICATE` says in words what a certificate shows.
use std::env;
use std::ffi::OsString;
use std::fs;
use std::process::ExitCode;
use tools::program;
use tools::task::{self, Refusal};

fn contents(file: &OsString) -> Result<Vec<u8>, String> {
    fs::read(file).map_err(|error| format!("{} cannot be read: {error}", file.display()))
}

fn explanation() -> Result<Vec<u8>, String> {
    let arguments: Vec<OsString> = env::args_os().skip(1).collect();
    let [task_file, certificate_file] = &arguments[..] else {
        return Err("use: explain TASK CERTIFICATE".into());
    };
    let refused = |what: &'static str| {
        move |refusal: Refusal| format!("the {what} is no good: {refusal}: {}", refusal.words)
    };
    let bytes = contents(task_file)?;
    let certificate = contents(certificate_file)?;
    let (task, _) = task::read(&bytes).map_err(refused("task"))?;
    let text = tools::explain::explain(&task, &certificate).map_err(refused("certificate"))?;
    Ok(text.into_bytes())
}

fn main() -> ExitCode {
    program::finish(explanation())
}
