//! The certificate checker.

use crate::certificate::{listed_attack, listed_position, listed_rounds, record_length};
use crate::game::{attacks, existing_attack, replies, Position};
use crate::model::*;
use crate::rules::Rules;
use crate::task;
use std::collections::{BTreeMap, BTreeSet};

/// After a refusal verdict and rounds are zero.
#[derive(Clone, Copy, PartialEq, Eq, Debug, Default)]
pub struct CheckAnswer {
    pub refusal: u32,
    pub verdict: u32,
    pub rounds: u32,
}

/// Side, edge and case, and the rounds, of a lost position's record, as
/// listed.
#[derive(Clone, Copy, PartialEq, Eq, Debug)]
struct Listed {
    attack: [u8; 3],
    rounds: u32,
}

/// A certificate that is well formed; it may still be wrong.
enum Proposal {
    Kept(BTreeSet<Position>),
    Lost(BTreeMap<Position, Listed>),
    /// No record at all, so of neither kind.
    Empty,
}

/// The records, cut apart; None for a kind that is not of this game, two
/// kinds or a cut body.
fn split_records(rules: Rules, certificate: &[u8]) -> Option<Vec<&[u8]>> {
    let Some(&kind) = certificate.first() else {
        return Some(Vec::new());
    };
    let length = record_length(rules.verdict_of_kind(kind)?);
    let records: Vec<&[u8]> = certificate.chunks(length).collect();
    let whole = records.iter().all(|r| r.len() == length && r[0] == kind);
    whole.then_some(records)
}

fn read_proposal(rules: Rules, task: &Task, certificate: &[u8]) -> Result<Proposal, Refusal> {
    let records = split_records(rules, certificate).ok_or(Refusal(13))?;
    let positions: Vec<Position> = records.iter().map(|r| listed_position(r)).collect();
    let legal = positions.iter().all(|p| p.is_legal(task));
    let rising = positions.windows(2).all(|two| two[0] < two[1]);
    if !legal || !rising {
        return Err(Refusal(13));
    }
    Ok(match certificate.first() {
        None => Proposal::Empty,
        Some(&kind) if kind == rules.kept.kind() => Proposal::Kept(positions.into_iter().collect()),
        Some(_) => {
            let fields = records
                .iter()
                .map(|r| Listed { attack: listed_attack(r), rounds: listed_rounds(r) });
            Proposal::Lost(positions.into_iter().zip(fields).collect())
        }
    })
}

/// Whether no position of the set is lost at once, and each attack has a
/// reply that leads into the set.
fn holds_together(rules: Rules, task: &Task, set: &BTreeSet<Position>) -> bool {
    let leads_into_set = |position: &Position, attack| {
        replies(task, position, attack).iter().any(|r| set.contains(&r.leads_to))
    };
    set.iter().all(|position| {
        !position.is_lost_at_once(rules, task)
            && attacks(rules, task, position).into_iter().all(|a| leads_into_set(position, a))
    })
}

fn is_justified(
    rules: Rules,
    task: &Task,
    list: &BTreeMap<Position, Listed>,
    position: &Position,
) -> bool {
    let Listed { attack, rounds } = list[position];
    if rounds == 0 {
        return position.is_lost_at_once(rules, task) && attack == [0, 0, 0];
    }
    let Some(attack) = existing_attack(rules, task, position, attack) else {
        return false;
    };
    let is_sooner = |p: &Position| list.get(p).is_some_and(|other| other.rounds < rounds);
    replies(task, position, attack).iter().all(|r| is_sooner(&r.leads_to))
}

/// The verdict and the start's rounds, or None if not accepted.
fn judge(rules: Rules, task: &Task, proposal: &Proposal) -> Option<(Verdict, u32)> {
    let start = Position::start(task);
    match proposal {
        Proposal::Empty => None,
        Proposal::Kept(set) => {
            let accepted = set.contains(&start) && holds_together(rules, task, set);
            accepted.then_some((rules.kept, 0))
        }
        Proposal::Lost(list) => {
            let accepted = list.keys().all(|p| is_justified(rules, task, list, p));
            let rounds = list.get(&start)?.rounds;
            accepted.then_some((rules.lost, rounds))
        }
    }
}

fn try_check(rules: Rules, bytes: &[u8], certificate: &[u8]) -> Result<(Verdict, u32), Refusal> {
    let task = task::read(bytes)?;
    let proposal = read_proposal(rules, &task, certificate)?;
    judge(rules, &task, &proposal).ok_or(Refusal(14))
}

/// A check by any rules.
pub fn check_by(rules: Rules, bytes: &[u8], certificate: &[u8]) -> CheckAnswer {
    match try_check(rules, bytes, certificate) {
        Ok((verdict, rounds)) => CheckAnswer { refusal: 0, verdict: verdict.number(), rounds },
        Err(refusal) => CheckAnswer { refusal: refusal.0, ..CheckAnswer::default() },
    }
}

/// Takes kinds 16 and 17.
pub fn check(bytes: &[u8], certificate: &[u8]) -> CheckAnswer {
    check_by(Rules::TWO_WAY, bytes, certificate)
}

/// Takes kinds 18 and 19, by the game in which only the left side attacks.
pub fn check_one_way(bytes: &[u8], certificate: &[u8]) -> CheckAnswer {
    check_by(Rules::ONE_WAY, bytes, certificate)
}
