//! How the programs end.
use std::io::{self, Write};
use std::process::ExitCode;

/// Writes the output to standard output, or the message to standard error, with exit status 1.
pub fn finish(outcome: Result<Vec<u8>, String>) -> ExitCode {
    let written = outcome.and_then(|output| {
        io::stdout()
            .write_all(&output)
            .map_err(|error| format!("standard output cannot be written: {error}"))
    });
    match written {
        Ok(()) => ExitCode::SUCCESS,
        Err(message) => {
            // The message is lost where standard error is closed; the exit status remains.
            let _ = writeln!(io::stderr(), "{message}");
            ExitCode::FAILURE
        }
    }
}
