//! The eleven marked cases, one of them with a history of 0, and the sample
//! output.

use crate::Test;
use reference::compare::{compare_by, Answer};
use reference::model::*;
use reference::rules::Rules;
use reference::task::{model_records, read, record, write, END, HISTORY, PAIR};
use reference::text::compare_output;

pub const TESTS: &[Test] = &[
    ("marked case 1: P, P", case_1),
    ("marked case 2: P, G", case_2),
    ("marked case 2 with a history of 0", case_2_blank),
    ("marked case 3: P with register 2", case_3),
    ("marked case 4: known loops without pair", case_4),
    ("marked case 5: known loops with pair", case_5),
    ("marked case 6: end marks 1 and 0", case_6),
    ("marked case 7: empty file", case_7),
    ("marked case 8: known edge outside its set", case_8),
    ("marked case 9: table of 25 and 26 bytes", case_9),
    ("marked case 10: buffer of 19 and 20 bytes", case_10),
    ("marked case 11: no reply believed too early", case_11),
    ("printed lines", printed),
];

pub fn model_p() -> Vec<u8> {
    hex("01 01 02 00  02 00 00 00  02 01 01 00  03 00 00 01 01 01  03 01 01 00 01 01")
}

pub fn model_g() -> Vec<u8> {
    hex("01 01 02 00  02 00 00 00  02 01 01 00  03 00 00 02 01 01  03 01 01 00 01 01")
}

pub fn hex(text: &str) -> Vec<u8> {
    text.split_whitespace().map(|t| u8::from_str_radix(t, 16).expect("hex")).collect()
}

pub fn task_of(left: Vec<u8>, right: Vec<u8>, pairs: &[[u8; 2]]) -> Vec<u8> {
    let pairs: Vec<u8> = pairs.iter().flat_map(|p| record(PAIR, p)).collect();
    [left, right, pairs, record(END, &[])].concat()
}

/// The task with a history record before its end.
pub fn stating(mut task: Vec<u8>, size: u8) -> Vec<u8> {
    task.splice(task.len() - 1..task.len() - 1, record(HISTORY, &[size]));
    task
}

/// Every state holds register 1; known edges as from, tag, to.
pub fn known_model(states: u8, edges: &[[u8; 3]]) -> Vec<u8> {
    let state = State { set: RegisterSet(1), end_mark: 0 };
    let edge = |&[from, tag, to]: &[u8; 3]| Edge { from, tag, kind: Kind::Known, register: 1, to };
    let model = Model {
        registers: 1,
        start: 0,
        states: vec![state; states as usize],
        edges: edges.iter().map(edge).collect(),
    };
    model_records(&model).concat()
}

/// The answer with table and buffer of these sizes, filled with 0xA5.
pub fn run_by(
    rules: Rules,
    task: &[u8],
    table_size: usize,
    buffer_size: usize,
) -> (Answer, Vec<u8>, Vec<u8>) {
    let mut table = vec![0xa5; table_size];
    let mut buffer = vec![0xa5; buffer_size];
    let answer = compare_by(rules, task, &mut table, &mut buffer);
    (answer, table, buffer)
}

fn run(task: &[u8], table_size: usize, buffer_size: usize) -> (Answer, Vec<u8>, Vec<u8>) {
    run_by(Rules::TWO_WAY, task, table_size, buffer_size)
}

fn roomy(task: &[u8]) -> Answer {
    run(task, 1200, 1600).0
}

fn equal(positions: u32, certificate_length: u32) -> Answer {
    Answer { refusal: 0, verdict: 1, positions, rounds: 0, certificate_length }
}

fn differ(positions: u32, rounds: u32, certificate_length: u32) -> Answer {
    Answer { refusal: 0, verdict: 2, positions, rounds, certificate_length }
}

pub fn refused(refusal: u32) -> Answer {
    Answer { refusal, ..Answer::default() }
}

pub fn task_1() -> Vec<u8> {
    task_of(model_p(), model_p(), &[])
}

fn case_1() {
    let (answer, table, buffer) = run(&task_1(), 40, 22);
    assert_eq!(answer, equal(2, 20));
    let entries = "00 00 00 00 00 00 00 00 0d ff ff ff ff  01 01 01 00 00 00 00 00 0d ff ff ff ff";
    assert_eq!(table, [hex(entries), vec![0; 14]].concat());
    let records = "10 00 00 00 00 00 00 00 00 0d  10 01 01 01 00 00 00 00 00 0d  a5 a5";
    assert_eq!(buffer, hex(records));
}

pub fn task_2() -> Vec<u8> {
    task_of(model_p(), model_g(), &[])
}

fn case_2() {
    let (answer, table, buffer) = run(&task_2(), 27, 18);
    assert_eq!(answer, differ(2, 1, 17));
    let entries =
        "00 00 00 00 00 00 00 00 0d 00 00 00 01  01 01 01 00 00 00 00 00 0d ff ff ff ff  00";
    assert_eq!(table, hex(entries));
    assert_eq!(buffer, hex("11 00 00 00 00 00 00 00 00 0d 01 00 07 00 00 00 01 a5"));
}

fn case_2_blank() {
    let (answer, table, buffer) = run(&stating(task_2(), 0), 26, 20);
    assert_eq!(answer, equal(2, 20));
    let entries = "00 00 00 00 00 00 00 00 00 ff ff ff ff  01 01 01 00 00 00 00 00 01 ff ff ff ff";
    assert_eq!(table, hex(entries));
    assert_eq!(buffer, hex("10 00 00 00 00 00 00 00 00 00  10 01 01 01 00 00 00 00 00 01"));
}

pub fn task_3() -> Vec<u8> {
    let two = hex("01 02 02 00  02 00 00 00  02 01 02 00  03 00 00 01 02 01  03 01 01 00 02 01");
    task_of(model_p(), two, &[])
}

fn case_3() {
    assert_eq!(roomy(&task_3()), equal(2, 20));
}

/// One state each with a known loop.
fn loops(pairs: &[[u8; 2]]) -> Vec<u8> {
    let model = known_model(1, &[[0, 0, 0]]);
    task_of(model.clone(), model, pairs)
}

pub fn task_4() -> Vec<u8> {
    loops(&[])
}

fn case_4() {
    assert_eq!(roomy(&task_4()), differ(1, 1, 17));
}

pub fn task_5() -> Vec<u8> {
    loops(&[[1, 1]])
}

fn case_5() {
    assert_eq!(roomy(&task_5()), equal(1, 10));
}

pub fn task_6() -> Vec<u8> {
    task_of(hex("01 00 01 00 02 00 00 01"), hex("01 00 01 00 02 00 00 00"), &[])
}

fn case_6() {
    let (answer, _, buffer) = run(&task_6(), 13, 17);
    assert_eq!(answer, differ(1, 0, 17));
    assert_eq!(buffer, hex("11 00 00 00 00 00 00 00 00 0d 00 00 00 00 00 00 00"));
}

fn case_7() {
    let (answer, table, buffer) = run(&[], 26, 20);
    assert_eq!(answer, refused(2));
    assert_eq!((table, buffer), (vec![0xa5; 26], vec![0xa5; 20]));
}

fn case_8() {
    let model = hex("01 01 01 00  02 00 00 00  03 00 00 00 01 00");
    assert_eq!(roomy(&task_of(model.clone(), model, &[])), refused(7));
}

fn case_9() {
    let task = task_1();
    let (answer, table, buffer) = run(&task, 25, 20);
    assert_eq!(answer, refused(11));
    assert_eq!((table, buffer), (vec![0; 25], vec![0xa5; 20]));
    assert_eq!(run(&task, 26, 20).0, equal(2, 20));
}

fn case_10() {
    let task = task_1();
    let (answer, table, buffer) = run(&task, 26, 19);
    assert_eq!(answer, refused(12));
    assert_eq!((table, buffer), (vec![0; 26], vec![0xa5; 19]));
    assert_eq!(run(&task, 26, 20).0, equal(2, 20));
}

pub fn task_11() -> Vec<u8> {
    let left = known_model(3, &[[0, 0, 1], [1, 1, 2], [1, 2, 2]]);
    let right = known_model(4, &[[0, 0, 1], [0, 0, 2], [1, 1, 3], [2, 2, 3]]);
    task_of(left, right, &[[1, 1]])
}

fn case_11() {
    let (answer, _, buffer) = run(&task_11(), 52, 51);
    assert_eq!(answer, differ(4, 2, 51));
    let records = "11 00 00 01 00 00 00 00 00 0d 01 00 00 00 00 00 02 \
                   11 01 01 01 00 00 00 00 00 0d 01 02 00 00 00 00 01 \
                   11 01 02 01 00 00 00 00 00 0d 01 01 00 00 00 00 01";
    assert_eq!(buffer, hex(records));
}

fn printed() {
    let p_g = task_of(model_p(), model_g(), &[]);
    assert_eq!(compare_output(&p_g), "DIFFER 2 1\nLOST 0 0 0 0 0 0 0 0 13 1 0 7 1\n");
    let p_p = task_of(model_p(), model_p(), &[]);
    let equal = "EQUAL 2 0\nKEPT 0 0 0 0 0 0 0 0 13\nKEPT 1 1 1 0 0 0 0 0 13\n";
    assert_eq!(compare_output(&p_p), equal);
    let blank = "EQUAL 2 0\nKEPT 0 0 0 0 0 0 0 0 0\nKEPT 1 1 1 0 0 0 0 0 1\n";
    assert_eq!(compare_output(&stating(p_g.clone(), 0)), blank);
    assert_eq!(compare_output(&[]), "REFUSED 2\n");
    assert_eq!(compare_output(&[0; 4096]), "REFUSED 1\n");
    assert_eq!(compare_output(&[0; 4097]), "TOO LONG\n");
    let again = write(&read(&p_g).expect("a valid task"));
    assert_eq!(again, p_g);
}
