//! Prints what `compare` prints; on request table and certificate bytes, or
//! the checker's answer; all of it by the one-way game too.

use reference::check::check_by;
use reference::compare::{compare_by, ENTRY_LENGTH};
use reference::model::Verdict;
use reference::rules::Rules;
use reference::text::*;
use std::io::{self, Read, Write};

const USAGE: &str = "\
usage: reference-compare                      task on standard input, as `compare`
       reference-compare --table FILE         also writes the whole lent table to FILE
                         --certificate FILE   also writes the certificate to FILE
                         --table-size BYTES   size of the lent table, default 52000
                         --buffer-size BYTES  size of the certificate buffer, default 64000
       reference-compare --check FILE         checker's answer to the task on standard
                                              input and the certificate in FILE
       reference-compare --one-way ...        any of these by the one-way game";

struct Options {
    rules: Rules,
    table: Option<String>,
    certificate: Option<String>,
    check: Option<String>,
    table_size: usize,
    buffer_size: usize,
}

fn options() -> Option<Options> {
    let mut options = Options {
        rules: Rules::TWO_WAY,
        table: None,
        certificate: None,
        check: None,
        table_size: TABLE_ENTRIES * ENTRY_LENGTH,
        buffer_size: CERTIFICATE_LIMIT,
    };
    let mut arguments = std::env::args().skip(1);
    while let Some(name) = arguments.next() {
        if name == "--one-way" {
            options.rules = Rules::ONE_WAY;
            continue;
        }
        let value = arguments.next()?;
        match name.as_str() {
            "--table" => options.table = Some(value),
            "--certificate" => options.certificate = Some(value),
            "--check" => options.check = Some(value),
            "--table-size" => options.table_size = value.parse().ok()?,
            "--buffer-size" => options.buffer_size = value.parse().ok()?,
            _ => return None,
        }
    }
    Some(options)
}

fn main() -> io::Result<()> {
    let Some(options) = options() else {
        eprintln!("{USAGE}");
        std::process::exit(2);
    };
    let mut input = Vec::new();
    io::stdin().read_to_end(&mut input)?;
    let text = match &options.check {
        Some(file) => check_text(options.rules, &input, &std::fs::read(file)?),
        None if input.len() > INPUT_LIMIT => compare_output_by(options.rules, &input),
        None => compare_text(&input, &options)?,
    };
    io::stdout().write_all(text.as_bytes())
}

fn check_text(rules: Rules, task: &[u8], certificate: &[u8]) -> String {
    let answer = check_by(rules, task, certificate);
    match Verdict::from_number(answer.verdict) {
        Some(verdict) => format!("ACCEPTED {} {}\n", verdict.name(), answer.rounds),
        None => format!("REFUSED {}\n", answer.refusal),
    }
}

fn compare_text(task: &[u8], options: &Options) -> io::Result<String> {
    let mut table = vec![0; options.table_size];
    let mut buffer = vec![0; options.buffer_size];
    let answer = compare_by(options.rules, task, &mut table, &mut buffer);
    let certificate = &buffer[..answer.certificate_length as usize];
    if let Some(file) = &options.table {
        std::fs::write(file, &table)?;
    }
    if let Some(file) = &options.certificate {
        std::fs::write(file, certificate)?;
    }
    Ok(answer_text(&answer, certificate))
}
