//! Rounds with actual object numbers, by brute force.
//!
//! This follows the papers' section of that name word by word. It knows
//! nothing of positions, partners or id cases: a setting holds numbers, and
//! whether an edge takes a number is decided by looking at the numbers.

use crate::model::*;
use crate::rules::Rules;
use std::collections::HashMap;

/// Numbers stay below 64 here, so that a history is one machine word.
pub type Number = u8;

/// A finite set of numbers.
#[derive(Clone, Copy, PartialEq, Eq, Hash, Debug, Default)]
pub struct NumberSet(pub u64);

impl NumberSet {
    pub fn contains(self, number: Number) -> bool {
        self.0 >> number & 1 == 1
    }

    pub fn insert(&mut self, number: Number) {
        self.0 |= 1 << number;
    }

    fn members(self) -> impl Iterator<Item = Number> {
        (0..64).filter(move |n| self.contains(*n))
    }

    fn outside(self) -> impl Iterator<Item = Number> {
        (0..64).filter(move |n| !self.contains(*n))
    }
}

/// One reader: its state and the number in each register it holds.
#[derive(Clone, Copy, PartialEq, Eq, Hash, Debug)]
pub struct Reader {
    pub state: u8,
    pub registers: [Option<Number>; MAX_REGISTERS],
}

impl Reader {
    fn holds(&self, number: Number) -> bool {
        self.registers.contains(&Some(number))
    }

    /// Whether an edge from this reader's state takes the number.
    pub fn takes(&self, edge: &Edge, number: Number, history: NumberSet) -> bool {
        match edge.kind {
            Kind::Known => self.registers[edge.register as usize - 1] == Some(number),
            Kind::LocallyFresh => !self.holds(number),
            Kind::GloballyFresh => !history.contains(number),
        }
    }

    /// The reader after an edge of its model that took the number.
    pub fn moved(&self, model: &Model, edge: &Edge, number: Number) -> Reader {
        let mut next = *self;
        if edge.kind.is_fresh() {
            next.registers[edge.register as usize - 1] = Some(number);
        }
        next.state = edge.to;
        for (index, held) in next.registers.iter_mut().enumerate() {
            if !model.set(edge.to).contains(index as u8 + 1) {
                *held = None;
            }
        }
        next
    }
}

#[derive(Clone, Copy, PartialEq, Eq, Hash, Debug)]
pub struct Setting {
    pub left: Reader,
    pub right: Reader,
    pub history: NumberSet,
}

impl Setting {
    fn reader(&self, side: Side) -> &Reader {
        match side {
            Side::Left => &self.left,
            Side::Right => &self.right,
        }
    }
}

/// A game of one task; the chooser takes the sides that attack. `new_numbers`
/// is how many never-seen numbers are tried in each choice. There are
/// endlessly many of them, and exchanging two of them throughout changes
/// nothing, so one is enough; more can be asked for to see that it is.
pub struct Game<'a> {
    rules: Rules,
    task: &'a Task,
    new_numbers: usize,
    known: HashMap<(Setting, u32), bool>,
}

impl<'a> Game<'a> {
    pub fn new(rules: Rules, task: &'a Task, new_numbers: usize) -> Game<'a> {
        Game { rules, task, new_numbers, known: HashMap::new() }
    }

    /// The number of settings looked at so far.
    pub fn size(&self) -> usize {
        self.known.len()
    }

    pub fn forced_within(&mut self, setting: &Setting, rounds: u32) -> bool {
        if self.rules.loses_at_once(self.task, setting.left.state, setting.right.state) {
            return true;
        }
        if rounds == 0 {
            return false;
        }
        if let Some(&answer) = self.known.get(&(*setting, rounds)) {
            return answer;
        }
        let answer =
            self.forced_within(setting, rounds - 1) || self.some_choice_forces(setting, rounds);
        self.known.insert((*setting, rounds), answer);
        answer
    }

    fn some_choice_forces(&mut self, setting: &Setting, rounds: u32) -> bool {
        let task = self.task;
        for &side in self.rules.attackers {
            let reader = setting.reader(side);
            for (_, edge) in task.model(side).edges_from(reader.state) {
                for number in self.nameable(setting.history) {
                    if reader.takes(edge, number, setting.history)
                        && self.every_reply_is_forced(setting, side, edge, number, rounds - 1)
                    {
                        return true;
                    }
                }
            }
        }
        false
    }

    /// Every number of the history and some never seen.
    fn nameable(&self, history: NumberSet) -> Vec<Number> {
        history.members().chain(history.outside().take(self.new_numbers)).collect()
    }

    fn every_reply_is_forced(
        &mut self,
        setting: &Setting,
        side: Side,
        edge: &Edge,
        number: Number,
        rounds: u32,
    ) -> bool {
        let task = self.task;
        let other = side.other();
        let replier = setting.reader(other);
        let moved = setting.reader(side).moved(task.model(side), edge, number);
        let mut history = setting.history;
        history.insert(number);
        for (_, reply) in task.model(other).edges_from(replier.state) {
            if reply.tag != edge.tag || !replier.takes(reply, number, setting.history) {
                continue;
            }
            let replied = replier.moved(task.model(other), reply, number);
            let (left, right) = match side {
                Side::Left => (moved, replied),
                Side::Right => (replied, moved),
            };
            if !self.forced_within(&Setting { left, right, history }, rounds) {
                return false;
            }
        }
        true
    }
}

/// Whether the history of an opening may have this many numbers: exactly as
/// many as stated, or at least 13 where 13 is stated.
pub fn may_open_with(task: &Task, history_size: usize) -> bool {
    match task.history() {
        MAX_HISTORY => history_size >= MAX_HISTORY as usize,
        stated => history_size == stated as usize,
    }
}

/// An opening: `numbers` gives the numbers to use, all different; a number
/// that the two readers share is used once. Further ones fill the history up
/// to its size, which has to be one that an opening may have.
pub fn opening(task: &Task, numbers: &[Number], history_size: usize) -> Setting {
    assert!(may_open_with(task, history_size), "{history_size} for {}", task.history());
    let mut source = numbers.iter().copied();
    let mut next_number = || source.next().expect("enough numbers");
    let mut left = Reader { state: task.left.start, registers: [None; MAX_REGISTERS] };
    let mut right = Reader { state: task.right.start, registers: [None; MAX_REGISTERS] };
    for register in task.left.start_set().iter() {
        left.registers[register as usize - 1] = Some(next_number());
    }
    for register in task.right.start_set().iter() {
        let pair = task.pairs.iter().find(|&&(_, r)| r == register);
        let shared = pair.and_then(|&(l, _)| left.registers[l as usize - 1]);
        right.registers[register as usize - 1] = Some(shared.unwrap_or_else(&mut next_number));
    }
    let mut history = NumberSet::default();
    for number in left.registers.iter().chain(&right.registers).flatten() {
        history.insert(*number);
    }
    while (history.0.count_ones() as usize) < history_size {
        history.insert(next_number());
    }
    Setting { left, right, history }
}
