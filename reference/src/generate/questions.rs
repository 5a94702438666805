//! Questions for first replies: requests in a row, several about each task.

use super::item;
use crate::compare::moves;
use crate::frames::{ReplyQuestion, Request};
use crate::game::{attacks, replies, Attack, Position, Reply};
use crate::model::Task;
use crate::random::Random;
use crate::rules::Rules;
use crate::tally::{reply_sorts, Tally, FIRST_ABOVE_0, TO_ONE_POSITION};
use crate::task;
use std::collections::BTreeSet;

/// Questions about one task that stand one behind the other.
const IN_A_ROW: usize = 12;

/// Longer items are left out, in bytes.
const LONGEST_ITEM: usize = 200;

/// How many of 100 tasks are asked about if no attack has two replies to one
/// position.
const PLAIN_PERCENT: usize = 40;

/// No more positions are looked for where a task has reached so many.
const ENOUGH_POSITIONS: usize = 60;

/// Requests, and how many of them are of each sort.
#[derive(Default)]
pub struct Questions {
    pub requests: Vec<Request>,
    pub tally: Tally,
}

/// Questions about items of a seed that are not turned back.
pub fn about_items(seed: u64, count: usize) -> Questions {
    let mut made = Questions::default();
    for index in 0.. {
        if made.requests.len() == count {
            break;
        }
        let bytes = item(seed, index).bytes;
        if bytes.len() > LONGEST_ITEM {
            continue;
        }
        let mut random = source(seed, index);
        let in_a_row = IN_A_ROW.min(count - made.requests.len());
        let subject = Subject::new(bytes);
        if let Some(s) = subject.filter(|s| s.is_forked() || random.chance(PLAIN_PERCENT)) {
            s.ask(&mut made, &mut random, in_a_row);
        }
    }
    made
}

/// Questions about this task alone.
pub fn about_task(seed: u64, count: usize, bytes: Vec<u8>) -> Result<Questions, String> {
    let subject = Subject::new(bytes).ok_or("the task is refused, or has no attack")?;
    let mut made = Questions::default();
    subject.ask(&mut made, &mut source(seed, 0), count);
    Ok(made)
}

/// Apart from what an item is made with.
fn source(seed: u64, index: u64) -> Random {
    Random::for_item(seed ^ 0xa5c, index)
}

/// An attack that exists in a position, with all replies to it.
struct Attacked {
    position: Position,
    attack: Attack,
    replies: Vec<Reply>,
    sorts: Vec<&'static str>,
}

/// What an attack is picked for.
#[derive(Clone, Copy, PartialEq, Eq)]
enum Wish {
    /// A sort of replies.
    Sort(&'static str),
    AnyReplies,
    NoReply,
}

impl Wish {
    /// How often each one is drawn, in parts of 100.
    const ALL: [(usize, Wish); 4] = [
        (40, Wish::Sort(TO_ONE_POSITION)),
        (25, Wish::Sort(FIRST_ABOVE_0)),
        (10, Wish::AnyReplies),
        (25, Wish::NoReply),
    ];

    fn is_met(self, attacked: &Attacked) -> bool {
        match self {
            Wish::Sort(sort) => attacked.sorts.contains(&sort),
            Wish::AnyReplies => !attacked.replies.is_empty(),
            Wish::NoReply => attacked.replies.is_empty(),
        }
    }
}

/// A task with attacks that can be asked about; there are some.
struct Subject {
    bytes: Vec<u8>,
    task: Task,
    attacked: Vec<Attacked>,
}

impl Subject {
    /// None for a task that is turned back or has no attack.
    fn new(bytes: Vec<u8>) -> Option<Subject> {
        let task = task::read(&bytes).ok()?;
        let attacked: Vec<Attacked> =
            some_reached(&task).iter().flat_map(|p| attacked_in(&task, p)).collect();
        (!attacked.is_empty()).then_some(Subject { bytes, task, attacked })
    }

    /// Whether two replies to some attack lead to one position.
    fn is_forked(&self) -> bool {
        self.attacked.iter().any(|a| a.sorts.contains(&TO_ONE_POSITION))
    }

    fn ask(&self, made: &mut Questions, random: &mut Random, count: usize) {
        made.tally.add("tasks");
        for _ in 0..count {
            let attacked = self.pick(random);
            let edges = self.task.model(attacked.attack.side.other()).edges.len();
            let from = look_from(random, &attacked.replies, edges);
            self.count(&mut made.tally, attacked, from);
            let Attack { side, edge, case } = attacked.attack;
            let attack = [side.number(), edge, case];
            let question = ReplyQuestion { position: attacked.position, attack, edge: from };
            made.requests.push(Request::FirstReply { task: self.bytes.clone(), question });
        }
    }

    /// An attack that meets a drawn wish, or else the first one of all that
    /// can be met. Of those that meet it, every id case is as likely.
    fn pick(&self, random: &mut Random) -> &Attacked {
        let drawn = random.weighted(&Wish::ALL);
        let all = Wish::ALL.into_iter().map(|(_, wish)| wish);
        let met = |wish: &Wish| self.attacked.iter().any(|a| wish.is_met(a));
        let wish = [drawn].into_iter().chain(all).find(met).expect("there is an attack");
        let fitting = || self.attacked.iter().filter(|a| wish.is_met(a));
        let cases: BTreeSet<u8> = fitting().map(|a| a.attack.case).collect();
        let case = *random.pick(&Vec::from_iter(cases));
        *random.pick(&Vec::from_iter(fitting().filter(|a| a.attack.case == case)))
    }

    /// Counts what is to be seen in a question, by the list of all replies.
    fn count(&self, tally: &mut Tally, attacked: &Attacked, from: u8) {
        let Attacked { position, attack, replies, sorts } = attacked;
        let (side, found) = (attack.side.other(), replies.iter().find(|r| r.edge >= from));
        let model = self.task.model(side);
        let is_its_place = |found: &Reply| {
            let place = model.edges_from(position.state(side)).position(|(n, _)| n == found.edge);
            place == Some(found.edge as usize)
        };
        let facts = [
            ("questions", true),
            ("found", found.is_some()),
            ("none", found.is_none()),
            ("none-left", found.is_none() && !replies.is_empty()),
            ("found-above-from", found.is_some_and(|r| r.edge > from)),
            ("found-behind-others", found.is_some_and(|r| r.edge > replies[0].edge)),
            ("found-not-its-place", found.is_some_and(|r| !is_its_place(r))),
            ("from-past-the-edges", from as usize >= model.edges.len()),
        ];
        let seen = facts.into_iter().filter(|(_, is_seen)| *is_seen).map(|(fact, _)| fact);
        seen.chain(sorts.iter().copied()).for_each(|key| tally.add(key));
        tally.add(format!("case:{}", attack.case));
    }
}

/// Positions that the task reaches, nearest first; all, if they are few.
fn some_reached(task: &Task) -> Vec<Position> {
    let mut list = vec![Position::start(task)];
    let mut known = BTreeSet::from([list[0]]);
    let mut next = 0;
    while next < list.len() && list.len() < ENOUGH_POSITIONS {
        let targets = moves(Rules::TWO_WAY, task, &list[next]).into_iter().flatten();
        list.extend(targets.filter(|p| known.insert(*p)));
        next += 1;
    }
    list
}

fn attacked_in(task: &Task, position: &Position) -> Vec<Attacked> {
    let with_replies = |attack| {
        let replies = replies(task, position, attack);
        let sorts = reply_sorts(&replies);
        Attacked { position: *position, attack, replies, sorts }
    };
    attacks(Rules::TWO_WAY, task, position).into_iter().map(with_replies).collect()
}

/// The number to look from: from the start, around the replies, anywhere
/// among the edges, past them.
fn look_from(random: &mut Random, replies: &[Reply], edges: usize) -> u8 {
    let first = replies.first().map_or(0, |r| r.edge);
    let last = replies.last().map_or(0, |r| r.edge);
    match random.below(20) {
        0..=6 => 0,
        7 => first,
        8 | 9 => random.between(first as usize, last as usize) as u8,
        10..=12 => first + 1,
        13 | 14 => last + 1,
        15..=17 => random.below(edges + 1) as u8,
        18 => random.between(edges, 255) as u8,
        _ => 255,
    }
}
