//! The plain comparer: reach everything, then settle round after round.

use crate::certificate::{kept_certificate, lost_certificate};
use crate::game::{attacks, replies, Position, POSITION_LENGTH};
use crate::model::*;
use crate::rules::Rules;
use crate::task;
use std::collections::BTreeMap;

pub const ENTRY_LENGTH: usize = POSITION_LENGTH + 4;
pub const NEVER_LOST: u32 = u32::MAX;

/// The entries of a table of this many bytes; spare bytes make none.
pub fn whole_entries(table: usize) -> usize {
    table / ENTRY_LENGTH
}

/// What a call returns, next to the table and the certificate buffer. After
/// a refusal everything but its number is zero.
#[derive(Clone, Copy, PartialEq, Eq, Debug, Default)]
pub struct Answer {
    pub refusal: u32,
    pub verdict: u32,
    pub positions: u32,
    pub rounds: u32,
    pub certificate_length: u32,
}

impl Answer {
    pub fn refused(refusal: Refusal) -> Answer {
        Answer { refusal: refusal.0, ..Answer::default() }
    }
}

/// Everything there is to know about a task that is not turned back, in one
/// game.
#[derive(Clone, PartialEq, Eq, Debug)]
pub struct Solution {
    pub rules: Rules,
    pub verdict: Verdict,
    /// 0 where the start is never lost.
    pub rounds: u32,
    /// The positions reached, rising, with rounds or NEVER_LOST.
    pub entries: Vec<(Position, u32)>,
    pub certificate: Vec<u8>,
}

impl Solution {
    /// Puts a solution together from the settled positions.
    pub fn new(rules: Rules, task: &Task, entries: Vec<(Position, u32)>) -> Solution {
        let rounds_of = |p: &Position| {
            let place = entries.binary_search_by(|(q, _)| q.cmp(p)).expect("a reached position");
            Some(entries[place].1).filter(|&n| n != NEVER_LOST)
        };
        let start_rounds = rounds_of(&Position::start(task));
        let certificate = match start_rounds {
            Some(_) => lost_certificate(rules, task, rounds_of),
            None => {
                let kept = entries.iter().filter(|(_, n)| *n == NEVER_LOST);
                kept_certificate(rules, kept.map(|(p, _)| *p))
            }
        };
        let verdict = rules.verdict(start_rounds.is_none());
        Solution { rules, verdict, rounds: start_rounds.unwrap_or(0), entries, certificate }
    }

    /// The answer for a lent table and buffer, which are filled.
    pub fn deliver(&self, table: &mut [u8], buffer: &mut [u8]) -> Answer {
        table.fill(0);
        if self.entries.len() > whole_entries(table.len()) {
            return Answer::refused(Refusal(11));
        }
        if self.certificate.len() > buffer.len() {
            return Answer::refused(Refusal(12));
        }
        for (entry, (position, rounds)) in table.chunks_mut(ENTRY_LENGTH).zip(&self.entries) {
            entry[..POSITION_LENGTH].copy_from_slice(&position.bytes());
            entry[POSITION_LENGTH..].copy_from_slice(&rounds.to_be_bytes());
        }
        buffer[..self.certificate.len()].copy_from_slice(&self.certificate);
        Answer {
            refusal: 0,
            verdict: self.verdict.number(),
            positions: self.entries.len() as u32,
            rounds: self.rounds,
            certificate_length: self.certificate.len() as u32,
        }
    }
}

/// For each position reached, for each of its attacks, where the replies
/// lead.
type Reach = BTreeMap<Position, Vec<Vec<Position>>>;

/// For each attack of the position, where its replies lead.
pub fn moves(rules: Rules, task: &Task, position: &Position) -> Vec<Vec<Position>> {
    let leads = |a| replies(task, position, a).iter().map(|r| r.leads_to).collect();
    attacks(rules, task, position).into_iter().map(leads).collect()
}

/// Positions that are lost in 0 rounds are expanded like all others: the
/// papers make no exception for them.
fn reach(starts: &[Position], moves: impl Fn(&Position) -> Vec<Vec<Position>>) -> Reach {
    let mut reached = Reach::new();
    let mut open = starts.to_vec();
    while let Some(position) = open.pop() {
        if reached.contains_key(&position) {
            continue;
        }
        let targets = moves(&position);
        open.extend(targets.iter().flatten().filter(|p| !reached.contains_key(p)));
        reached.insert(position, targets);
    }
    reached
}

/// Rounds of every position of `reached`, by the papers' induction on the
/// number of rounds. It is over as soon as one round adds nothing.
fn settle(rules: Rules, task: &Task, reached: &Reach) -> Vec<(Position, u32)> {
    let place: BTreeMap<Position, usize> =
        reached.keys().enumerate().map(|(n, p)| (*p, n)).collect();
    let moves: Vec<Vec<Vec<usize>>> = reached
        .values()
        .map(|list| list.iter().map(|ts| ts.iter().map(|t| place[t]).collect()).collect())
        .collect();
    let at_once = |p: &Position| p.is_lost_at_once(rules, task);
    let mut rounds: Vec<u32> =
        reached.keys().map(|p| if at_once(p) { 0 } else { NEVER_LOST }).collect();
    for round in 1.. {
        let lost = |p: &usize| rounds[*p] != NEVER_LOST;
        let newly: Vec<usize> = (0..moves.len())
            .filter(|p| !lost(p) && moves[*p].iter().any(|targets| targets.iter().all(lost)))
            .collect();
        if newly.is_empty() {
            break;
        }
        for p in newly {
            rounds[p] = round;
        }
    }
    reached.keys().copied().zip(rounds).collect()
}

/// The positions reached from these legal positions, rising, with rounds.
pub fn settle_from(rules: Rules, task: &Task, starts: &[Position]) -> Vec<(Position, u32)> {
    settle(rules, task, &reach(starts, |p| moves(rules, task, p)))
}

/// The same with other moves than the papers' (for tests of the tests).
pub fn settle_by(
    rules: Rules,
    task: &Task,
    moves: impl Fn(&Position) -> Vec<Vec<Position>>,
) -> Vec<(Position, u32)> {
    settle(rules, task, &reach(&[Position::start(task)], moves))
}

pub fn solve(rules: Rules, task: &Task) -> Solution {
    Solution::new(rules, task, settle_from(rules, task, &[Position::start(task)]))
}

/// A comparison by any rules.
pub fn compare_by(rules: Rules, bytes: &[u8], table: &mut [u8], buffer: &mut [u8]) -> Answer {
    match task::read(bytes) {
        Err(refusal) => Answer::refused(refusal),
        Ok(task) => solve(rules, &task).deliver(table, buffer),
    }
}

/// EQUAL or DIFFER.
pub fn compare(bytes: &[u8], table: &mut [u8], buffer: &mut [u8]) -> Answer {
    compare_by(Rules::TWO_WAY, bytes, table, buffer)
}

/// FOLLOWS or FALLS SHORT: only the left side attacks.
pub fn compare_one_way(bytes: &[u8], table: &mut [u8], buffer: &mut [u8]) -> Answer {
    compare_by(Rules::ONE_WAY, bytes, table, buffer)
}
