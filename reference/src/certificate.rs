//! The certificates that the comparer writes, and the parts of their records.

use crate::game::{attacks, replies, Attack, Position, POSITION_LENGTH};
use crate::model::{Task, Verdict};
use crate::rules::Rules;
use std::collections::BTreeMap;

pub const KEPT_LENGTH: usize = 1 + POSITION_LENGTH;
pub const LOST_LENGTH: usize = ROUNDS_AT + 4;

/// Where the history's size stands in a record: last in the position, which
/// follows the kind.
pub const SIZE_AT: usize = POSITION_LENGTH;

/// Where side, edge and case stand in a lost position's record.
pub const SIDE_AT: usize = KEPT_LENGTH;
pub const EDGE_AT: usize = SIDE_AT + 1;
pub const CASE_AT: usize = SIDE_AT + 2;

/// Where its rounds begin.
pub const ROUNDS_AT: usize = SIDE_AT + 3;

/// The position of a record of either length.
pub fn listed_position(record: &[u8]) -> Position {
    Position::from_bytes(&record[1..])
}

/// Side, edge and case of a lost position's record.
pub fn listed_attack(record: &[u8]) -> [u8; 3] {
    [record[SIDE_AT], record[EDGE_AT], record[CASE_AT]]
}

pub fn listed_rounds(record: &[u8]) -> u32 {
    record[ROUNDS_AT..].iter().fold(0, |rounds, &byte| rounds << 8 | byte as u32)
}

/// The length of a record in a certificate for this verdict.
pub fn record_length(verdict: Verdict) -> usize {
    if verdict.is_kept() {
        KEPT_LENGTH
    } else {
        LOST_LENGTH
    }
}

/// The length that no certificate for this verdict goes beyond where so many
/// positions are reached: it has at most one record for each.
pub fn greatest_length(verdict: Verdict, positions: usize) -> usize {
    positions * record_length(verdict)
}

fn put_kept(bytes: &mut Vec<u8>, rules: Rules, position: &Position) {
    bytes.push(rules.kept.kind());
    bytes.extend_from_slice(&position.bytes());
}

pub fn kept_record(rules: Rules, position: &Position) -> Vec<u8> {
    let mut bytes = Vec::new();
    put_kept(&mut bytes, rules, position);
    bytes
}

/// Side, edge and case are zero where there is no attack.
pub fn lost_record(
    rules: Rules,
    position: &Position,
    attack: Option<Attack>,
    rounds: u32,
) -> Vec<u8> {
    let mut bytes = vec![rules.lost.kind()];
    bytes.extend_from_slice(&position.bytes());
    match attack {
        Some(a) => bytes.extend_from_slice(&[a.side.number(), a.edge, a.case]),
        None => bytes.extend_from_slice(&[0, 0, 0]),
    }
    bytes.extend_from_slice(&rounds.to_be_bytes());
    bytes
}

/// `positions` rise and are never lost.
pub fn kept_certificate(rules: Rules, positions: impl Iterator<Item = Position>) -> Vec<u8> {
    let mut bytes = Vec::new();
    for position in positions {
        put_kept(&mut bytes, rules, &position);
    }
    bytes
}

/// The start and all positions its attacks lead to. `rounds_of` gives the
/// rounds of a reached position, None where it is never lost.
pub fn lost_certificate(
    rules: Rules,
    task: &Task,
    rounds_of: impl Fn(&Position) -> Option<u32>,
) -> Vec<u8> {
    let mut records = BTreeMap::new();
    let mut open = vec![Position::start(task)];
    while let Some(position) = open.pop() {
        if records.contains_key(&position) {
            continue;
        }
        let rounds = rounds_of(&position).expect("only lost positions are listed");
        let attack = first_winning_attack(rules, task, &position, &rounds_of);
        records.insert(position, lost_record(rules, &position, attack, rounds));
        if let Some(attack) = attack {
            open.extend(replies(task, &position, attack).iter().map(|r| r.leads_to));
        }
    }
    records.into_values().flatten().collect()
}

/// None exactly for rounds 0.
fn first_winning_attack(
    rules: Rules,
    task: &Task,
    position: &Position,
    rounds_of: &impl Fn(&Position) -> Option<u32>,
) -> Option<Attack> {
    let rounds = rounds_of(position).filter(|&n| n != 0)?;
    let is_sooner = |p: &Position| rounds_of(p).is_some_and(|n| n < rounds);
    let wins = |a: &Attack| replies(task, position, *a).iter().all(|r| is_sooner(&r.leads_to));
    let found = attacks(rules, task, position).into_iter().find(wins);
    Some(found.expect("a lost position has a winning attack"))
}
