//! What the program `compare` prints.

use crate::certificate::{listed_rounds, record_length, ROUNDS_AT};
use crate::compare::{compare_by, Answer, ENTRY_LENGTH};
use crate::model::Verdict;
use crate::rules::Rules;
use std::fmt::Write;

pub const INPUT_LIMIT: usize = 4096;
pub const TABLE_ENTRIES: usize = 4000;
pub const CERTIFICATE_LIMIT: usize = 64_000;

/// The whole output of `compare` for this input.
pub fn compare_output(input: &[u8]) -> String {
    compare_output_by(Rules::TWO_WAY, input)
}

/// The same by any rules.
pub fn compare_output_by(rules: Rules, input: &[u8]) -> String {
    if input.len() > INPUT_LIMIT {
        return "TOO LONG\n".to_string();
    }
    let mut table = vec![0; TABLE_ENTRIES * ENTRY_LENGTH];
    let mut buffer = vec![0; CERTIFICATE_LIMIT];
    let answer = compare_by(rules, input, &mut table, &mut buffer);
    answer_text(&answer, &buffer[..answer.certificate_length as usize])
}

pub fn answer_text(answer: &Answer, certificate: &[u8]) -> String {
    let Some(verdict) = Verdict::from_number(answer.verdict) else {
        return format!("REFUSED {}\n", answer.refusal);
    };
    let mut text = format!("{} {} {}\n", verdict.name(), answer.positions, answer.rounds);
    for record in certificate.chunks(record_length(verdict)) {
        text.push_str(&record_line(verdict, record));
    }
    text
}

fn record_line(verdict: Verdict, record: &[u8]) -> String {
    let (word, small_fields) =
        if verdict.is_kept() { ("KEPT", &record[1..]) } else { ("LOST", &record[1..ROUNDS_AT]) };
    let mut line = word.to_string();
    for byte in small_fields {
        write!(line, " {byte}").expect("writing to a string");
    }
    if !verdict.is_kept() {
        write!(line, " {}", listed_rounds(record)).expect("writing to a string");
    }
    line.push('\n');
    line
}
