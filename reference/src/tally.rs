//! Named counts, for the quota table and for the runner's `--require`.

use crate::certificate::{
    greatest_length, listed_attack, listed_position, record_length, LOST_LENGTH,
};
use crate::compare::{whole_entries, Solution};
use crate::game::{attacks, existing_attack, replies, Attack, Position, Reply, CASE_NEW};
use crate::generate::histories::SizeClass;
use crate::model::*;
use crate::ways::{beside_limit, Way};
use std::collections::{BTreeMap, BTreeSet};

#[derive(Clone, Default, Debug)]
pub struct Tally {
    counts: BTreeMap<String, u64>,
}

impl Tally {
    pub fn add(&mut self, key: impl Into<String>) {
        *self.counts.entry(key.into()).or_insert(0) += 1;
    }

    pub fn get(&self, key: &str) -> u64 {
        self.counts.get(key).copied().unwrap_or(0)
    }

    pub fn table(&self) -> String {
        self.counts.iter().map(|(key, count)| format!("{count:>9}  {key}\n")).collect()
    }

    /// Verdict, rounds and positions, in coarse classes.
    pub fn add_outcome(&mut self, task: &Task, solution: &Solution) {
        let positions = solution.entries.len() as u32;
        self.add(format!("verdict:{}", solution.verdict.key()));
        self.add(format!("positions:{}", class(positions, &POSITION_CLASSES)));
        if !solution.verdict.is_kept() {
            self.add_rounds(solution.rounds);
        } else if !task.pairs.is_empty() && positions >= 3 {
            let word = solution.verdict.key().to_lowercase();
            self.add(format!("{word}:matched-and-3-positions"));
        }
        let class = SizeClass::of(task).name();
        self.add(format!("history:{class}:{}", solution.verdict.key()));
        if solution.rounds >= 3 {
            self.add("rounds:at-least-3");
            self.add(format!("history:{class}:rounds-at-least-3"));
        }
    }

    /// How a task with a small history came out beside the same task with a
    /// history of 13.
    pub fn add_beside_13(&mut self, with_13: &Solution, small: &Solution) {
        self.add(format!("beside-13:{}", beside_13(with_13, small)));
    }

    /// How another game came out beside the two-way one.
    pub fn add_beside(&mut self, two_way: &Solution, other: &Solution) {
        self.add(format!("beside:{}", beside(two_way, other)));
    }

    /// Whether every position reached has its record, so that no certificate
    /// for so many is longer; and if the table has entries for just these,
    /// whether the buffer is just long enough or one byte too short.
    pub fn add_limits(&mut self, solution: &Solution, table: usize, buffer: usize) {
        let (positions, length) = (solution.entries.len(), solution.certificate.len());
        if length != greatest_length(solution.verdict, positions) {
            return;
        }
        let word = if solution.verdict.is_kept() { "kept" } else { "listed" };
        self.add(format!("{word}:all"));
        let limit = format!("limit-{}", record_length(solution.verdict));
        let table_is_full = whole_entries(table) == positions;
        if table_is_full && buffer == length {
            self.add(format!("{limit}:met"));
        }
        if table_is_full && buffer + 1 == length {
            self.add(format!("{limit}:one-less"));
        }
    }

    /// Which way the compared library takes with a table of so many bytes, by
    /// history and by whether the table was too small; and whether that is at
    /// the limit between the ways, or an entry beside it.
    pub fn add_way(&mut self, task: &Task, table: usize, refusal: u32) {
        let way = Way::of(task, table).name();
        let history = if task.history_record.is_some() { "stated" } else { "not-stated" };
        let end = if refusal == 11 { "11" } else { "not-11" };
        self.add(format!("way:{way}"));
        self.add(format!("way:{way}:{history}:{end}"));
        if let Some(side) = beside_limit(task, table) {
            self.add(format!("limit:{side}"));
            self.add(format!("limit:{side}:{end}"));
        }
    }

    pub fn add_task_size(&mut self, task: &[u8]) {
        self.add(format!("task-bytes:{}", class(task.len() as u32, &SIZE_CLASSES)));
    }

    pub fn add_rounds(&mut self, rounds: u32) {
        self.add(format!("rounds:{}", class(rounds, &ROUND_CLASSES)));
    }

    /// Attack cases, replies and meetings of edge kinds, each counted once a
    /// task.
    pub fn add_features(&mut self, task: &Task, solution: &Solution) {
        let mut keys = BTreeSet::new();
        for (position, attack) in listed_attacks(task, solution) {
            keys.insert(format!("case:{}", attack.case));
            if attack.case == CASE_NEW && edge_kind(task, attack.side, attack.edge) == "local" {
                keys.insert("case:8-of-a-local-edge".to_string());
            }
            keys.extend(reply_keys("certificate-", task, &position, attack));
        }
        // A sample is enough where there are very many positions.
        for (position, _) in solution.entries.iter().take(300) {
            for attack in attacks(solution.rules, task, position) {
                keys.extend(reply_keys("", task, position, attack));
            }
            keys.extend(meetings(task, position));
        }
        keys.into_iter().for_each(|key| self.add(key));
    }
}

/// The two-way verdict, and where it is DIFFER, what the other game makes of
/// it.
fn beside(two_way: &Solution, other: &Solution) -> &'static str {
    match (two_way.verdict.is_kept(), other.verdict.is_kept()) {
        (true, _) => "EQUAL",
        (false, true) => "DIFFER-but-kept",
        (false, false) if two_way.rounds < other.rounds => "DIFFER-and-lost-later",
        (false, false) => "DIFFER-and-lost-as-soon",
    }
}

/// A larger history is never worse for the attacker.
fn beside_13(with_13: &Solution, small: &Solution) -> &'static str {
    match (with_13.verdict.is_kept(), small.verdict.is_kept()) {
        (false, true) => "kept-by-a-small-history",
        (false, false) if with_13.rounds < small.rounds => "lost-later",
        _ => "the-same",
    }
}

const ROUND_CLASSES: [u32; 7] = [0, 1, 2, 3, 5, 9, 15];
const SIZE_CLASSES: [u32; 6] = [0, 1, 50, 200, 1000, 4097];
const POSITION_CLASSES: [u32; 6] = [1, 2, 10, 100, 1000, 4001];

/// The class of a number, by the lowest numbers of the classes: "3-4".
fn class(number: u32, lowest: &[u32]) -> String {
    let place = lowest.iter().rposition(|&low| low <= number).expect("a class");
    match lowest.get(place + 1) {
        None => format!("{}+", lowest[place]),
        Some(next) if next - 1 == lowest[place] => format!("{}", lowest[place]),
        Some(next) => format!("{}-{}", lowest[place], next - 1),
    }
}

/// The attacks that a solution's certificate names.
pub fn listed_attacks(task: &Task, solution: &Solution) -> Vec<(Position, Attack)> {
    if solution.verdict.is_kept() {
        return Vec::new();
    }
    let attack_of = |record: &[u8]| {
        let position = listed_position(record);
        let attack = existing_attack(solution.rules, task, &position, listed_attack(record))?;
        Some((position, attack))
    };
    solution.certificate.chunks(LOST_LENGTH).filter_map(attack_of).collect()
}

/// "reply:attack kind-reply kind" for each reply, "replies:sort" for all of
/// them, with the same word before each.
fn reply_keys(word: &str, task: &Task, position: &Position, attack: Attack) -> Vec<String> {
    let list = replies(task, position, attack);
    let (kind, other) = (edge_kind(task, attack.side, attack.edge), attack.side.other());
    let kinds = list.iter().map(|r| format!("reply:{kind}-{}", edge_kind(task, other, r.edge)));
    let sorts = reply_sorts(&list).into_iter().map(|sort| format!("replies:{sort}"));
    kinds.chain(sorts).map(|key| format!("{word}{key}")).collect()
}

pub const FIRST_ABOVE_0: &str = "first-above-0";
pub const TO_ONE_POSITION: &str = "to-one-position";
pub const SEVERAL: &str = "several";

/// What is to be seen in the replies to one attack, all of them, rising: the
/// lowest is not edge 0 of its model; two lead to one position; there is more
/// than one.
pub fn reply_sorts(list: &[Reply]) -> Vec<&'static str> {
    let above_0 = list.first().is_some_and(|first| first.edge > 0);
    let targets: BTreeSet<Position> = list.iter().map(|r| r.leads_to).collect();
    let sorts = [
        (FIRST_ABOVE_0, above_0),
        (TO_ONE_POSITION, targets.len() < list.len()),
        (SEVERAL, list.len() > 1),
    ];
    sorts.into_iter().filter(|(_, is_seen)| *is_seen).map(|(sort, _)| sort).collect()
}

fn edge_kind(task: &Task, side: Side, edge: u8) -> &'static str {
    task.model(side).edges[edge as usize].kind.name()
}

/// "left kind-right kind" for edges with the same tag, replies or not.
fn meetings(task: &Task, position: &Position) -> BTreeSet<String> {
    let mut found = BTreeSet::new();
    for (_, left) in task.left.edges_from(position.left) {
        for (_, right) in task.right.edges_from(position.right) {
            if left.tag == right.tag {
                found.insert(format!("meeting:{}-{}", left.kind.name(), right.kind.name()));
            }
        }
    }
    found
}
