//! Counts the pairs of edges that a comparison by passes tries in a game, from the outside: by the reference's attacks and
//! replies, and by the rounds that it found.
//!
//! - Exploring tries, at every position reached, each left edge with each right edge that starts there and has its tag.
//! - Ranking goes over the positions in passes 1, 2 and so on, until a pass finds no further loss: one pass more than the
//!   most rounds of a position that is lost. In pass k it takes the positions that are not lost in fewer than k rounds and
//!   whose pair of states is open: from pass 2 on, a left and a right edge of one tag lead from it to the pair of states of
//!   a position of k - 1 rounds. At each it tries attacks in order of side, edge and case, until one wins, but where the
//!   history has its greatest size no new number with a locally fresh edge (what was seen before has no reply that a new
//!   number has not, and leads to the same position then); and for an attack its replies by edge number, until one leads to a
//!   position that is not lost in fewer than k rounds. Each reply looked at is a pair tried.
//!
//! Pass 0, sorting and writing the certificate are not counted; they are in the time.
use reference::compare::NEVER_LOST;
use reference::game::{attacks, replies, Attack, Position, CASE_NEW};
use reference::model::{Kind, Task, MAX_HISTORY};
use reference::rules::Rules;

pub struct Tried {
    pub passes: u64,
    pub exploring: u64,
    pub ranking: u64,
}

/// The rounds of all positions reached, by a number that a position's bytes give. Sizes count from the least one reached, so that
/// a task that states none takes no more room than one size.
struct Rounds {
    of: Vec<u8>,
    least_size: u8,
}

/// Stands for NEVER_LOST in a byte; the families have fewer rounds.
const NEVER: u8 = u8::MAX;

/// As many numbers as positions of one size have: two states of 4 bits, six partners of 3.
const OF_A_SIZE: usize = 1 << (2 * 4 + 6 * 3);

impl Rounds {
    fn new(entries: &[(Position, u32)]) -> Rounds {
        let least_size = entries.iter().map(|(position, _)| position.history).min().expect("the start");
        let sizes = (MAX_HISTORY - least_size) as usize + 1;
        let mut rounds = Rounds { of: vec![0; sizes * OF_A_SIZE], least_size };
        for (position, n) in entries {
            let place = rounds.place(position);
            rounds.of[place] = match *n {
                NEVER_LOST => NEVER,
                n => u8::try_from(n).ok().filter(|n| *n != NEVER).expect("fewer rounds"),
            };
        }
        rounds
    }

    fn place(&self, position: &Position) -> usize {
        let first = (position.history - self.least_size) as usize * OF_A_SIZE;
        first + position.partners.iter().fold(pair(position), |number, &partner| number << 3 | partner as usize)
    }

    fn get(&self, position: &Position) -> u64 {
        self.of[self.place(position)] as u64
    }
}

/// The pair of a position's states.
fn pair(position: &Position) -> usize {
    (position.left as usize) << 4 | position.right as usize
}

/// The pairs of states from which a left and a right edge of one tag lead to one of these.
fn sources(task: &Task, to: &[bool; 256]) -> [bool; 256] {
    let mut from = [false; 256];
    for left in &task.left.edges {
        for right in task.right.edges.iter().filter(|e| e.tag == left.tag) {
            if to[(left.to as usize) << 4 | right.to as usize] {
                from[(left.from as usize) << 4 | right.from as usize] = true;
            }
        }
    }
    from
}

/// For each pair of states, in how many of the passes 1 to k it is open, for k from 0 on.
struct Open {
    passes: Vec<[u64; 256]>,
}

impl Open {
    fn new(task: &Task, entries: &[(Position, u32)], passes: u64) -> Open {
        let mut open = vec![[0; 256], [1; 256]];
        for k in 2..=passes {
            let mut lost = [false; 256];
            entries.iter().filter(|(_, n)| *n as u64 == k - 1).for_each(|(p, _)| lost[pair(p)] = true);
            let now = sources(task, &lost);
            let before = open[open.len() - 1];
            open.push(std::array::from_fn(|i| before[i] + now[i] as u64));
        }
        Open { passes: open }
    }

    /// The open passes after pass `after`, up to pass `last`.
    fn between(&self, pair: usize, after: u64, last: u64) -> u64 {
        let upto = |k: u64| self.passes[k as usize][pair];
        if after < last { upto(last) - upto(after) } else { 0 }
    }
}

/// The attacks that ranking tries.
fn ranked_attacks(rules: Rules, task: &Task, position: &Position) -> Vec<Attack> {
    let kind = |a: &Attack| task.model(a.side).edges[a.edge as usize].kind;
    let mut list = attacks(rules, task, position);
    list.retain(|a| a.case != CASE_NEW || kind(a) == Kind::GloballyFresh || position.history < MAX_HISTORY);
    list
}

pub fn tried(rules: Rules, task: &Task, entries: &[(Position, u32)]) -> Tried {
    let lost = entries.iter().map(|(_, n)| *n).filter(|n| *n != NEVER_LOST);
    let passes = lost.max().unwrap_or(0) as u64 + 1;
    let (rounds, open) = (Rounds::new(entries), Open::new(task, entries, passes));
    let ranking = Ranking { rules, task, rounds, open, passes };
    let positions = || entries.iter().map(|(position, _)| position);
    Tried {
        passes,
        exploring: positions().map(|p| same_tag(task, p)).sum(),
        ranking: positions().map(|p| ranking.looked_at(p)).sum(),
    }
}

fn same_tag(task: &Task, position: &Position) -> u64 {
    let right = |tag| task.right.edges_from(position.right).filter(|(_, e)| e.tag == tag).count();
    task.left.edges_from(position.left).map(|(_, e)| right(e.tag) as u64).sum()
}

/// What ranking goes by, and its count of passes.
struct Ranking<'a> {
    rules: Rules,
    task: &'a Task,
    rounds: Rounds,
    open: Open,
    passes: u64,
}

impl Ranking<'_> {
    /// The replies looked at, over all passes that take this position.
    fn looked_at(&self, position: &Position) -> u64 {
        let own = self.rounds.get(position);
        if own == 0 {
            return 0;
        }
        let rounds_of = |p: &Position| self.rounds.get(p);
        let mut sum = 0;
        // In the last pass that takes the position, attacks after the one that wins are not tried.
        let mut last = own.min(self.passes);
        for attack in ranked_attacks(self.rules, self.task, position) {
            let replies = replies(self.task, position, attack);
            let targets: Vec<u64> = replies.iter().map(|r| rounds_of(&r.leads_to)).collect();
            sum += looked_at_in(&targets, last, |after, last| self.open.between(pair(position), after, last));
            if last == own && targets.iter().all(|&n| n < own) {
                last = own - 1;
            }
        }
        sum
    }
}

/// A reply is looked at in the open passes up to `last` in which all replies before it lead to positions lost in fewer rounds.
fn looked_at_in(targets: &[u64], last: u64, open: impl Fn(u64, u64) -> u64) -> u64 {
    let mut most = 0;
    let mut sum = 0;
    for &target in targets {
        sum += open(most, last);
        most = most.max(target);
    }
    sum
}

#[cfg(test)]
mod tests {
    use super::*;
    use reference::compare::solve;
    use reference::generate::{families::family, histories::stating, valid_task};
    use reference::random::Random;
    use std::collections::BTreeMap;

    /// The same counts by going through the passes.
    fn by_passes(rules: Rules, task: &Task) -> (u64, u64) {
        let mut lost: BTreeMap<Position, u64> = BTreeMap::new();
        let entries = solve(rules, task).entries;
        for (position, _) in entries.iter().filter(|(p, _)| p.is_lost_at_once(rules, task)) {
            lost.insert(*position, 0);
        }
        let mut looked_at = 0;
        for pass in 1.. {
            let mut last = [false; 256];
            lost.iter().filter(|(_, n)| **n + 1 == pass).for_each(|(p, _)| last[pair(p)] = true);
            let sources = if pass == 1 { [true; 256] } else { sources(task, &last) };
            let taken = |p: &Position| sources[pair(p)] && !lost.contains_key(p);
            let open: Vec<Position> = entries.iter().map(|e| e.0).filter(taken).collect();
            let before = lost.clone();
            for position in open {
                let wins = |attack| {
                    replies(task, &position, attack).iter().all(|reply| {
                        looked_at += 1;
                        before.contains_key(&reply.leads_to)
                    })
                };
                if ranked_attacks(rules, task, &position).into_iter().any(wins) {
                    lost.insert(position, pass);
                }
            }
            if lost.len() == before.len() {
                return (pass, looked_at);
            }
        }
        unreachable!("a pass finds no loss")
    }

    fn agrees(task: &Task) {
        for rules in Rules::ALL {
            let counted = tried(rules, task, &solve(rules, task).entries);
            assert_eq!((counted.passes, counted.ranking), by_passes(rules, task));
        }
    }

    #[test]
    fn families_agree() {
        for (name, sizes) in [
            ("dearest", &[3][..]),
            ("dearest-equal", &[3]),
            ("ring", &[3, 2]),
            ("ring-equal", &[3, 2]),
            ("ring-late", &[5, 2]),
            ("chain", &[9]),
            ("rings", &[7, 6]),
            ("rings-fresh", &[5, 4, 2]),
        ] {
            agrees(&family(name, sizes).expect("a family"));
        }
    }

    /// Sizes at the numbers held together, one above, and 12.
    #[test]
    fn small_histories_agree() {
        for (name, sizes, size) in [
            ("dearest", &[3][..], 6),
            ("dearest-equal", &[2], 5),
            ("ring", &[3, 2], 4),
            ("ring-late", &[5, 2], 12),
            ("rings-fresh", &[5, 4, 2], 5),
        ] {
            agrees(&stating(family(name, sizes).expect("a family"), size).expect("a size that it can have"));
        }
    }

    #[test]
    fn generated_tasks_agree() {
        for index in 0..20 {
            agrees(&valid_task(&mut Random::for_item(1, index)));
        }
    }

    fn exploring(task: &Task) -> u64 {
        tried(Rules::TWO_WAY, task, &solve(Rules::TWO_WAY, task).entries).exploring
    }

    #[test]
    fn exploring_counts_edges_of_one_tag() {
        // 34 positions, 3 edges of one tag on each side.
        let task = family("dearest", &[3]).expect("a family");
        assert_eq!(exploring(&task), 34 * 9);
        let task = family("chain", &[9]).expect("a family");
        assert_eq!(exploring(&task), 8);
    }
}
