//! Answers the frames of the reference's differential runner (reference/README.md, "Frames") with what the proved code
//! gives. A task is read by the program `read_task`, named as the first argument; comparing and checking are calls of the
//! static library.
mod lent;

use lent::Lent;
use nuldopa::boundary::{self, Answer};
use nuldopa::{Game, Position, POSITION_LENGTH};
use std::env;
use std::io::{self, Read, Write};
use std::process::{Command, Stdio};

fn number(bytes: &[u8], at: &mut usize) -> u32 {
    let n = u32::from_le_bytes(bytes[*at..*at + 4].try_into().unwrap());
    *at += 4;
    n
}

fn string<'a>(bytes: &'a [u8], at: &mut usize) -> &'a [u8] {
    let n = number(bytes, at) as usize;
    *at += n;
    &bytes[*at - n..*at]
}

fn put_number(out: &mut Vec<u8>, n: usize) {
    out.extend(u32::try_from(n).expect("four bytes hold it").to_le_bytes());
}

fn put_string(out: &mut Vec<u8>, s: &[u8]) {
    put_number(out, s.len());
    out.extend(s);
}

/// The request's payload, or nothing at the end of the input.
fn request() -> Option<Vec<u8>> {
    let mut length = [0; 4];
    io::stdin().read_exact(&mut length).ok()?;
    let mut payload = vec![0; u32::from_le_bytes(length) as usize];
    io::stdin().read_exact(&mut payload).ok()?;
    Some(payload)
}

fn output_of(program: &str, input: &[u8]) -> String {
    let mut child = Command::new(program)
        .stdin(Stdio::piped())
        .stdout(Stdio::piped())
        .spawn()
        .expect("the program can be started");
    // The program may stop reading early; what it then prints is judged.
    let _ = child.stdin.take().unwrap().write_all(input);
    let output = child.wait_with_output().expect("the program ends");
    String::from_utf8_lossy(&output.stdout).into_owned()
}

/// The dump of a task from the numbers that `read_task` prints: the same, with the count of pairs before the position.
fn dump(numbers: &[u8]) -> Vec<u8> {
    let (models, position) = numbers.split_last_chunk::<POSITION_LENGTH>().expect("a position");
    let pairs = Position::from_bytes(*position).partners.iter().filter(|&&p| p != 0).count() as u8;
    [models, &[pairs], position].concat()
}

fn read(program: &str, task: &[u8]) -> Vec<u8> {
    let text = output_of(program, task);
    let mut words = text.split_whitespace();
    let verdict = words.next().unwrap_or("");
    let numbers: Vec<u8> = words.map(|w| w.parse().expect("a number of a byte")).collect();
    let mut out = Vec::new();
    if verdict == "READ" {
        put_number(&mut out, 0);
        put_string(&mut out, &dump(&numbers));
    } else {
        put_number(&mut out, numbers.first().copied().unwrap_or(0) as usize);
        put_string(&mut out, &[]);
    }
    out
}

/// The frames number EQUAL and DIFFER 1 and 2, and the other verdicts as the library does, by the kinds of their
/// certificates. No other number of the library's becomes one of the frames'.
fn verdict(answer: &Answer) -> usize {
    match answer.verdict {
        0 => 0,
        16 => 1,
        17 => 2,
        18 => 18,
        19 => 19,
        other => panic!("verdict {other}"),
    }
}

fn compare(game: Game, task: &[u8], table: &[u8], certificate: &[u8]) -> Vec<u8> {
    let (mut table, mut certificate) = (Lent::new(table), Lent::new(certificate));
    let answer = boundary::compare(game, task, table.bytes(), certificate.bytes());
    let mut out = Vec::new();
    put_number(&mut out, answer.refusal as usize);
    put_number(&mut out, verdict(&answer));
    put_number(&mut out, answer.positions as usize);
    put_number(&mut out, answer.rounds as usize);
    put_number(&mut out, answer.length);
    put_string(&mut out, table.returned());
    put_string(&mut out, certificate.returned());
    out
}

fn check(game: Game, task: &[u8], certificate: &[u8]) -> Vec<u8> {
    let answer = boundary::check(game, task, certificate);
    // The frame has no place for these two, which the checker leaves 0.
    assert_eq!((answer.positions, answer.length), (0, 0));
    let mut out = Vec::new();
    put_number(&mut out, answer.refusal as usize);
    put_number(&mut out, verdict(&answer));
    put_number(&mut out, answer.rounds as usize);
    out
}

/// The operation, and what it gives.
fn answer(program: &str, payload: &[u8]) -> Vec<u8> {
    let mut at = 1;
    let mut next = || string(payload, &mut at);
    let operation = payload[0];
    let given = match operation {
        1 => read(program, next()),
        2 => compare(Game::Equality, next(), next(), next()),
        3 => check(Game::Equality, next(), next()),
        4 => compare(Game::OneWay, next(), next(), next()),
        5 => check(Game::OneWay, next(), next()),
        _ => panic!("no operation {operation}"),
    };
    [&[operation], &given[..]].concat()
}

fn main() {
    let program = env::args().nth(1).expect("the program read_task");
    while let Some(payload) = request() {
        let mut frame = Vec::new();
        put_string(&mut frame, &answer(&program, &payload));
        io::stdout().write_all(&frame).unwrap();
        io::stdout().flush().unwrap();
    }
}
