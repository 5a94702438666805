//! Proposed certificates: right ones, damaged ones, and right ones that the
//! comparer would not write.

use crate::certificate::*;
use crate::compare::{settle_from, solve, Solution, NEVER_LOST};
use crate::game::{attacks, replies, Attack, Position};
use crate::model::*;
use crate::random::Random;
use crate::rules::Rules;
use std::collections::{BTreeMap, BTreeSet};

#[derive(Clone, Copy, PartialEq, Eq, PartialOrd, Ord, Debug)]
pub enum ProposalKind {
    Right,
    ByteAltered,
    Cut,
    Reordered,
    TwoKinds,
    /// More positions than the comparer lists, and right.
    Larger,
    MoreRounds,
    /// Positions that are lost at once, lost by an attack instead; right.
    MarkedLater,
    /// An attack that does not exist, or does not win.
    WrongAttack,
    /// Another winning attack than the first, and right.
    OtherAttack,
    /// A list for the verdict that is not the task's.
    OtherVerdict,
    RecordMissing,
    IllegalPosition,
    Empty,
    Noise,
    /// One record with another history size, and all else as it was.
    SizeAltered,
    /// Records that differ in the history's size alone, put in with no regard
    /// to what they need.
    SizeTwins,
    /// As these, with all that they need; right.
    RightTwins,
    /// A history size above 13 or below the numbers held together.
    IllegalSize,
    /// A list with kinds of the other game.
    OtherKinds,
    /// The other game's own list, under this game's kinds.
    OtherRules,
}

impl ProposalKind {
    pub const ALL: [ProposalKind; 21] = [
        ProposalKind::Right,
        ProposalKind::ByteAltered,
        ProposalKind::Cut,
        ProposalKind::Reordered,
        ProposalKind::TwoKinds,
        ProposalKind::Larger,
        ProposalKind::MoreRounds,
        ProposalKind::MarkedLater,
        ProposalKind::WrongAttack,
        ProposalKind::OtherAttack,
        ProposalKind::OtherVerdict,
        ProposalKind::RecordMissing,
        ProposalKind::IllegalPosition,
        ProposalKind::Empty,
        ProposalKind::Noise,
        ProposalKind::SizeAltered,
        ProposalKind::SizeTwins,
        ProposalKind::RightTwins,
        ProposalKind::IllegalSize,
        ProposalKind::OtherKinds,
        ProposalKind::OtherRules,
    ];

    pub fn name(self) -> &'static str {
        [
            "right",
            "byte-altered",
            "cut",
            "reordered",
            "two-kinds",
            "larger",
            "more-rounds",
            "marked-later",
            "wrong-attack",
            "other-attack",
            "other-verdict",
            "record-missing",
            "illegal-position",
            "empty",
            "noise",
            "size-altered",
            "size-twins",
            "right-twins",
            "illegal-size",
            "other-kinds",
            "other-rules",
        ][self as usize]
    }

    pub fn from_name(name: &str) -> Option<ProposalKind> {
        ProposalKind::ALL.into_iter().find(|k| k.name() == name)
    }

    /// The kinds that are drawn at random in a game. The last two come of the
    /// other game and are drawn in the one-way game alone; by name they can be
    /// had in either.
    pub fn drawn(rules: Rules) -> &'static [ProposalKind] {
        let all = &ProposalKind::ALL;
        match rules == Rules::TWO_WAY {
            true => &all[..all.len() - 2],
            false => all,
        }
    }

    /// Whether the checker has to accept what is made under this name.
    pub fn is_right(self) -> bool {
        use ProposalKind::*;
        matches!(self, Right | Larger | MoreRounds | MarkedLater | OtherAttack | RightTwins)
    }
}

/// A list of lost positions before it is written.
type LostList = BTreeMap<Position, (Option<Attack>, u32)>;

fn lost_bytes(rules: Rules, list: &LostList) -> Vec<u8> {
    list.iter().flat_map(|(p, (attack, rounds))| lost_record(rules, p, *attack, *rounds)).collect()
}

fn cut_records(solution: &Solution) -> Vec<Vec<u8>> {
    let length = record_length(solution.verdict);
    solution.certificate.chunks(length).map(|r| r.to_vec()).collect()
}

pub fn random_kind(random: &mut Random, rules: Rules) -> ProposalKind {
    *random.pick(ProposalKind::drawn(rules))
}

/// A proposed certificate of this kind for a task and its solution. Where a
/// kind makes no sense for the verdict, the right certificate comes back.
pub fn proposal(
    random: &mut Random,
    task: &Task,
    solution: &Solution,
    kind: ProposalKind,
) -> Vec<u8> {
    let right = &solution.certificate;
    match kind {
        ProposalKind::Right => right.clone(),
        ProposalKind::ByteAltered => byte_altered(random, right),
        ProposalKind::Cut => right[..random.below(right.len())].to_vec(),
        ProposalKind::Reordered => reordered(random, solution),
        ProposalKind::TwoKinds => two_kinds(random, solution),
        ProposalKind::Larger => larger(random, task, solution),
        ProposalKind::MoreRounds => more_rounds(random, task, solution),
        ProposalKind::MarkedLater => marked_later(random, task, solution),
        ProposalKind::WrongAttack => wrong_attack(random, solution),
        ProposalKind::OtherAttack if solution.verdict.is_kept() => larger(random, task, solution),
        ProposalKind::OtherAttack => {
            lost_bytes(solution.rules, &other_attacks(random, task, solution))
        }
        ProposalKind::OtherVerdict => other_verdict(random, task, solution),
        ProposalKind::RecordMissing => record_missing(random, solution),
        ProposalKind::IllegalPosition => illegal_position(random, solution),
        ProposalKind::Empty => Vec::new(),
        ProposalKind::Noise => noise(random, solution.rules),
        ProposalKind::SizeAltered => size_altered(random, solution),
        ProposalKind::SizeTwins => size_twins(random, task, solution),
        ProposalKind::RightTwins => right_twins(random, task, solution),
        ProposalKind::IllegalSize => illegal_size(random, task, solution),
        ProposalKind::OtherKinds => other_kinds(random, task, solution),
        ProposalKind::OtherRules => {
            under_kinds(solution.rules, &solve(solution.rules.other(), task)).concat()
        }
    }
}

fn byte_altered(random: &mut Random, right: &[u8]) -> Vec<u8> {
    let mut bytes = right.to_vec();
    let place = random.below(bytes.len());
    bytes[place] = match random.below(3) {
        0 => bytes[place].wrapping_add(1),
        1 => bytes[place].wrapping_sub(1),
        _ => bytes[place] ^ random.between(1, 255) as u8,
    };
    bytes
}

/// Two records exchanged, or one written twice.
fn reordered(random: &mut Random, solution: &Solution) -> Vec<u8> {
    let mut list = cut_records(solution);
    let place = random.below(list.len());
    if list.len() == 1 || random.chance(30) {
        let again = list[place].clone();
        list.insert(place, again);
    } else {
        let other = (place + random.between(1, list.len() - 1)) % list.len();
        list.swap(place, other);
    }
    list.concat()
}

fn two_kinds(random: &mut Random, solution: &Solution) -> Vec<u8> {
    let rules = solution.rules;
    let mut list = cut_records(solution);
    let place = random.below(list.len());
    let position = listed_position(&list[place]);
    list[place] = match solution.verdict.is_kept() {
        true => lost_record(rules, &position, None, 0),
        false => kept_record(rules, &position),
    };
    // A list of one record has one kind still; add the record it had.
    if list.len() == 1 {
        list.push(solution.certificate.clone());
    }
    list.concat()
}

/// A legal position, drawn at random.
fn random_position(random: &mut Random, task: &Task) -> Position {
    let left = random.below(task.left.states.len()) as u8;
    let right = random.below(task.right.states.len()) as u8;
    let mut free: Vec<u8> = task.right.set(right).iter().collect();
    random.shuffle(&mut free);
    let mut partners = [0; MAX_REGISTERS];
    for register in task.left.set(left).iter() {
        if random.chance(60) {
            partners[register as usize - 1] = free.pop().unwrap_or(0);
        }
    }
    let mut position = Position { left, right, partners, history: task.history() };
    // Mostly the task's own size, since a smaller one has a large reach.
    if random.chance(20) || !position.is_legal(task) {
        position.history = legal_size(random, task, &position);
    }
    position
}

/// A history size that is legal for the states and partners of a position.
fn legal_size(random: &mut Random, task: &Task, position: &Position) -> u8 {
    random.between(position.held_together(task) as usize, MAX_HISTORY as usize) as u8
}

/// The start, some further legal positions, and all that is reached.
fn wider_reach(random: &mut Random, rules: Rules, task: &Task) -> Vec<(Position, u32)> {
    let mut starts = vec![Position::start(task)];
    for _ in 0..random.between(1, 6) {
        starts.push(random_position(random, task));
    }
    settle_from(rules, task, &starts)
}

/// A set that holds together, or an attack list, over more positions than
/// needed.
fn larger(random: &mut Random, task: &Task, solution: &Solution) -> Vec<u8> {
    let entries = wider_reach(random, solution.rules, task);
    settled_list(random, task, solution, &entries)
}

/// All settled positions that go with the verdict.
fn settled_list(
    random: &mut Random,
    task: &Task,
    solution: &Solution,
    entries: &[(Position, u32)],
) -> Vec<u8> {
    let rules = solution.rules;
    match solution.verdict.is_kept() {
        true => kept_bytes(rules, entries, |rounds| rounds == NEVER_LOST),
        false => lost_bytes(rules, &all_lost(random, rules, task, entries)),
    }
}

fn kept_bytes(rules: Rules, entries: &[(Position, u32)], wanted: impl Fn(u32) -> bool) -> Vec<u8> {
    let kept = entries.iter().filter(|(_, rounds)| wanted(*rounds));
    kept_certificate(rules, kept.map(|(p, _)| *p))
}

/// Some attack of the position whose replies are all lost sooner.
fn winning_attack(
    random: &mut Random,
    rules: Rules,
    task: &Task,
    rounds_of: &BTreeMap<Position, u32>,
    position: &Position,
) -> Option<Attack> {
    let rounds = rounds_of[position];
    if rounds == 0 {
        return None;
    }
    let wins =
        |a: &Attack| replies(task, position, *a).iter().all(|r| rounds_of[&r.leads_to] < rounds);
    let winning: Vec<Attack> = attacks(rules, task, position).into_iter().filter(wins).collect();
    Some(*random.pick(&winning))
}

fn all_lost(
    random: &mut Random,
    rules: Rules,
    task: &Task,
    entries: &[(Position, u32)],
) -> LostList {
    let rounds_of: BTreeMap<Position, u32> = entries.iter().copied().collect();
    let mut list = LostList::new();
    for &(position, rounds) in entries.iter().filter(|(_, r)| *r != NEVER_LOST) {
        let attack = winning_attack(random, rules, task, &rounds_of, &position);
        list.insert(position, (attack, rounds));
    }
    list
}

/// As the comparer's list, but with any winning attack.
fn other_attacks(random: &mut Random, task: &Task, solution: &Solution) -> LostList {
    let rounds_of: BTreeMap<Position, u32> = solution.entries.iter().copied().collect();
    let mut list = LostList::new();
    let mut open = vec![Position::start(task)];
    while let Some(position) = open.pop() {
        if list.contains_key(&position) {
            continue;
        }
        let attack = winning_attack(random, solution.rules, task, &rounds_of, &position);
        list.insert(position, (attack, rounds_of[&position]));
        if let Some(attack) = attack {
            open.extend(replies(task, &position, attack).iter().map(|r| r.leads_to));
        }
    }
    list
}

/// Rounds made larger in a way that keeps "fewer" as it was.
fn more_rounds(random: &mut Random, task: &Task, solution: &Solution) -> Vec<u8> {
    if solution.verdict.is_kept() {
        return solution.certificate.clone();
    }
    let mut list = other_attacks(random, task, solution);
    let factor = random.between(1, 1000) as u32;
    // The last one gives the start, which has the most rounds, all ones.
    let offset = *random.pick(&[0, 1, 255, 65_536, u32::MAX - solution.rounds * factor]);
    for (_, rounds) in list.values_mut().filter(|(_, rounds)| *rounds > 0) {
        *rounds = *rounds * factor + offset;
    }
    lost_bytes(solution.rules, &list)
}

/// Lists some positions that are lost at once with an attack that wins.
/// Their rounds and those of others rise by that; where the start could then
/// not be listed, the right certificate comes back.
fn marked_later(random: &mut Random, task: &Task, solution: &Solution) -> Vec<u8> {
    let rules = solution.rules;
    let wanted = |position: &Position| !position.is_lost_at_once(rules, task) || random.chance(60);
    let later: BTreeSet<Position> =
        solution.entries.iter().map(|(p, _)| *p).filter(wanted).collect();
    let list = lost_by_attack(task, solution, &later);
    if solution.verdict.is_kept() || !list.contains_key(&Position::start(task)) {
        return solution.certificate.clone();
    }
    lost_bytes(rules, &list)
}

/// All positions that are lost where those in `later` are lost by attacks
/// alone, round after round.
fn lost_by_attack(task: &Task, solution: &Solution, later: &BTreeSet<Position>) -> LostList {
    let at_once = solution.entries.iter().filter(|(p, _)| !later.contains(p));
    let mut list: LostList = at_once.map(|(p, _)| (*p, (None, 0))).collect();
    for round in 1.. {
        let wins = |p: &Position, a: &Attack| {
            replies(task, p, *a).iter().all(|r| list.contains_key(&r.leads_to))
        };
        let attacks_of = |p: &Position| attacks(solution.rules, task, p).into_iter();
        let lost_now: LostList = later
            .iter()
            .filter(|p| !list.contains_key(p))
            .filter_map(|p| Some((*p, attacks_of(p).find(|a| wins(p, a))?)))
            .map(|(p, attack)| (p, (Some(attack), round)))
            .collect();
        if lost_now.is_empty() {
            break;
        }
        list.extend(lost_now);
    }
    list
}

/// Changes side, edge, case or rounds of one record of an attack list.
fn wrong_attack(random: &mut Random, solution: &Solution) -> Vec<u8> {
    if solution.verdict.is_kept() {
        return byte_altered(random, &solution.certificate);
    }
    let mut list = cut_records(solution);
    let place = random.below(list.len());
    let record = &mut list[place];
    match random.below(5) {
        0 => record[SIDE_AT] = *random.pick(&[0, 1, 2, 3, 255]),
        1 => record[EDGE_AT] = *random.pick(&[0, 1, 2, 3, 63, 64, 255]),
        2 => record[CASE_AT] = *random.pick(&[0, 1, 2, 3, 4, 5, 6, 7, 8, 9, 255]),
        3 => record[LOST_LENGTH - 1] = record[LOST_LENGTH - 1].wrapping_sub(1),
        _ => record[SIDE_AT..].fill(0),
    }
    list.concat()
}

fn other_verdict(random: &mut Random, task: &Task, solution: &Solution) -> Vec<u8> {
    let Solution { rules, ref entries, .. } = *solution;
    if !solution.verdict.is_kept() {
        let whole = random.chance(50);
        return kept_bytes(rules, entries, |rounds| whole || rounds == NEVER_LOST);
    }
    let mut list = LostList::new();
    for &(position, _) in entries {
        let all = attacks(rules, task, &position);
        let attack = (!all.is_empty()).then(|| *random.pick(&all));
        list.insert(position, (attack, random.between(0, 3) as u32));
    }
    lost_bytes(rules, &list)
}

fn record_missing(random: &mut Random, solution: &Solution) -> Vec<u8> {
    let mut list = cut_records(solution);
    list.remove(random.below(list.len()));
    list.concat()
}

fn illegal_position(random: &mut Random, solution: &Solution) -> Vec<u8> {
    let mut list = cut_records(solution);
    let place = random.below(list.len());
    let record = &mut list[place];
    match random.below(3) {
        0 => record[random.between(1, 2)] = random.between(3, 255) as u8,
        1 => record[random.between(3, 8)] = random.between(1, 7) as u8,
        _ => record[3..9].fill(random.between(1, 6) as u8),
    }
    list.concat()
}

fn size_altered(random: &mut Random, solution: &Solution) -> Vec<u8> {
    let mut list = cut_records(solution);
    let place = random.below(list.len());
    let size = &mut list[place][SIZE_AT];
    *size = match random.below(4) {
        0 => size.wrapping_sub(1),
        1 => *size + 1,
        2 => random.between(0, MAX_HISTORY as usize) as u8,
        _ => random.byte(),
    };
    list.concat()
}

/// For some listed positions the same with another legal size, beside them
/// or in their place; fields that follow are kept.
fn size_twins(random: &mut Random, task: &Task, solution: &Solution) -> Vec<u8> {
    let in_place = random.chance(30);
    let mut list = BTreeMap::new();
    for record in cut_records(solution) {
        let position = listed_position(&record);
        let chosen = random.chance(40);
        if chosen {
            let mut twin = record.clone();
            twin[SIZE_AT] = legal_size(random, task, &position);
            list.insert(listed_position(&twin), twin);
        }
        if !(chosen && in_place) {
            list.insert(position, record);
        }
    }
    list.into_values().flatten().collect()
}

/// The positions of the list and some twins of them, with all that is
/// reached.
fn right_twins(random: &mut Random, task: &Task, solution: &Solution) -> Vec<u8> {
    let listed: Vec<Position> = cut_records(solution).iter().map(|r| listed_position(r)).collect();
    let mut starts = vec![Position::start(task)];
    for _ in 0..random.between(1, 3) {
        let mut twin = *random.pick(&listed);
        twin.history = legal_size(random, task, &twin);
        starts.push(twin);
    }
    let entries = settle_from(solution.rules, task, &starts);
    settled_list(random, task, solution, &entries)
}

fn illegal_size(random: &mut Random, task: &Task, solution: &Solution) -> Vec<u8> {
    let mut list = cut_records(solution);
    let place = random.below(list.len());
    let held = listed_position(&list[place]).held_together(task) as usize;
    let above = MAX_HISTORY as usize + 1;
    let size = match random.below(4) {
        0 => above,
        1 if held > 0 => held - 1,
        2 if held > 0 => random.below(held),
        _ => random.between(above, 255),
    };
    list[place][SIZE_AT] = size as u8;
    list.concat()
}

fn noise(random: &mut Random, rules: Rules) -> Vec<u8> {
    let length = random.between(1, 40);
    let mut bytes = random.bytes(length);
    if random.chance(70) {
        bytes[0] = random.pick(&[rules.kept, rules.lost]).kind();
    }
    bytes
}

/// The records of a solution's certificate, under the kinds of a game.
fn under_kinds(rules: Rules, solution: &Solution) -> Vec<Vec<u8>> {
    let kind = rules.verdict(solution.verdict.is_kept()).kind();
    let mut list = cut_records(solution);
    list.iter_mut().for_each(|record| record[0] = kind);
    list
}

/// The other game's own certificate; or the right one with the other game's
/// kind in all records, or in one.
fn other_kinds(random: &mut Random, task: &Task, solution: &Solution) -> Vec<u8> {
    let other = solution.rules.other();
    let altered = under_kinds(other, solution);
    match random.below(3) {
        0 => solve(other, task).certificate,
        1 => altered.concat(),
        _ => {
            let mut list = cut_records(solution);
            let place = random.below(list.len());
            list[place] = altered[place].clone();
            list.concat()
        }
    }
}
