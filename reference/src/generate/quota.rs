//! The quotas that the generator has to meet, and the table of them. Tasks
//! are solved by the baseline, which is quick and gives the same solutions.

use super::histories::SizeClass;
use super::proposals::{proposal, ProposalKind};
use super::{item, Item};
use crate::baseline::solve;
use crate::check::check_by;
use crate::model::{Task, MAX_HISTORY};
use crate::random::Random;
use crate::rules::Rules;
use crate::tally::{Tally, FIRST_ABOVE_0, TO_ONE_POSITION};
use crate::task;

/// What came of `count` items of a seed, in one game.
pub fn measure(rules: Rules, seed: u64, count: u64) -> Tally {
    measure_items(rules, (0..count).map(|index| item(seed, index)))
}

pub fn measure_items(rules: Rules, items: impl Iterator<Item = Item>) -> Tally {
    let mut tally = Tally::default();
    for item in items {
        tally.add(format!("item:{}", item.kind.name()));
        match task::read(&item.bytes) {
            Err(refusal) => tally.add(format!("refusal:{}", refusal.0)),
            Ok(task) => {
                let solution = solve(rules, &task);
                tally.add_outcome(&task, &solution);
                tally.add_features(&task, &solution);
                if task.history() < MAX_HISTORY {
                    let with_13 = Task { history_record: None, ..task.clone() };
                    tally.add_beside_13(&solve(rules, &with_13), &solution);
                }
                if rules != Rules::TWO_WAY {
                    tally.add_beside(&solve(Rules::TWO_WAY, &task), &solution);
                }
            }
        }
    }
    tally
}

/// What the checker says to proposed certificates for `count` items.
pub fn measure_proposals(rules: Rules, seed: u64, count: u64) -> Tally {
    let mut tally = Tally::default();
    for index in 0..count {
        let bytes = item(seed, index).bytes;
        let Ok(task) = task::read(&bytes) else {
            continue;
        };
        let solution = solve(rules, &task);
        if solution.entries.len() > 1000 {
            continue;
        }
        let mut random = Random::for_item(seed ^ 0x5eed, index);
        for &kind in ProposalKind::drawn(rules) {
            let certificate = proposal(&mut random, &task, &solution, kind);
            let verdict = match check_by(rules, &bytes, &certificate).refusal {
                0 => "accepted".to_string(),
                number => format!("refused-{number}"),
            };
            tally.add(format!("proposal:{}:{verdict}", kind.name()));
            tally.add(format!("checker:{verdict}"));
        }
    }
    tally
}

/// Each quota for 20,000 items: key and least count. Known and globally
/// fresh edges can meet but never reply to each other. Where one side
/// attacks, certificates have fewer attacks; and both outcomes that part from
/// the two-way ones are asked for.
pub fn quotas(rules: Rules) -> Vec<(String, u64)> {
    let kept = rules.kept.key().to_lowercase();
    let mut list = vec![
        (format!("{kept}:matched-and-3-positions"), 2000),
        ("rounds:at-least-3".to_string(), 2000),
        ("rounds:15+".to_string(), 200),
    ];
    if rules != Rules::TWO_WAY {
        list.push(("beside:DIFFER-but-kept".to_string(), 2000));
        list.push(("beside:DIFFER-and-lost-later".to_string(), 200));
    }
    let in_certificates = 100 * rules.attackers.len() as u64;
    list.extend((1..=10).chain([15]).map(|n| (format!("refusal:{n}"), 200)));
    list.extend((0..=8).map(|n| (format!("case:{n}"), 200)));
    let kinds = ["known", "local", "global"];
    for left in kinds {
        for right in kinds {
            list.push((format!("meeting:{left}-{right}"), 200));
        }
    }
    for pair in REPLY_PAIRS {
        list.push((format!("reply:{pair}"), 200));
    }
    for pair in REPLY_PAIRS {
        // The left side comes first, so only its locally fresh edges are
        // listed with a globally fresh reply, in either game.
        let least = if pair == "local-global" { 100 } else { in_certificates };
        list.push((format!("certificate-reply:{pair}"), least));
    }
    for word in ["replies", "certificate-replies"] {
        for sort in [FIRST_ABOVE_0, TO_ONE_POSITION] {
            list.push((format!("{word}:{sort}"), 200));
        }
    }
    list.extend(history_quotas(rules));
    list
}

/// Every outcome with every class of history size; and small histories that
/// change the outcome, or make case 8 of a locally fresh edge the first
/// attack, which with a history of 13 it never is: there case 7 comes before
/// it, has the same replies or fewer and leads to the same positions.
fn history_quotas(rules: Rules) -> Vec<(String, u64)> {
    let mut list = Vec::new();
    let in_certificates = 100 * rules.attackers.len() as u64;
    for class in SizeClass::ALL.map(SizeClass::name) {
        for verdict in [rules.kept, rules.lost] {
            list.push((format!("history:{class}:{}", verdict.key()), 200));
        }
        list.push((format!("history:{class}:rounds-at-least-3"), 100));
    }
    for key in
        ["beside-13:kept-by-a-small-history", "beside-13:lost-later", "case:8-of-a-local-edge"]
    {
        list.push((key.to_string(), in_certificates));
    }
    list
}

const REPLY_PAIRS: [&str; 7] = [
    "known-known",
    "known-local",
    "local-known",
    "local-local",
    "local-global",
    "global-local",
    "global-global",
];

/// The quota table, and whether all quotas are met.
pub fn quota_table(rules: Rules, tally: &Tally) -> (String, bool) {
    let mut text = String::new();
    let mut all_met = true;
    for (key, least) in quotas(rules) {
        let count = tally.get(&key);
        let met = count >= least;
        all_met &= met;
        let word = if met { "met" } else { "MISSED" };
        text.push_str(&format!("{count:>7} of {least:>5}  {word:<6}  {key}\n"));
    }
    (text, all_met)
}
