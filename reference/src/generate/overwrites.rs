//! Pairs in which registers are overwritten and looked at afterwards, so
//! that it matters which old partners are gone.
//!
//! Both readers write along a chain of states, not always into registers
//! that correspond, and at its end take known edges.

use super::models::*;
use super::near::{maybe_exchanged, pairs_by_name};
use crate::model::*;
use crate::random::Random;

/// When the number in each register came in: two registers of the two
/// readers hold the same number if their times are the same.
type Times = [usize; MAX_REGISTERS];

struct Writer {
    used: Vec<u8>,
    times: Times,
    edges: Vec<Edge>,
}

impl Writer {
    fn new(used: &[u8]) -> Writer {
        // Before the first round register r holds the number of time r.
        Writer { used: used.to_vec(), times: [1, 2, 3, 4, 5, 6], edges: Vec::new() }
    }

    fn write(&mut self, step: usize, kind: Kind, register: u8) {
        let (from, to) = (step as u8, step as u8 + 1);
        self.edges.push(Edge { from, tag: 0, kind, register, to });
        self.times[register as usize - 1] = 100 + step;
    }

    fn look(&mut self, step: usize, tag: u8, register: u8) {
        let (from, to) = (step as u8, step as u8);
        self.edges.push(Edge { from, tag, kind: Kind::Known, register, to });
    }

    fn time(&self, register: u8) -> usize {
        self.times[register as usize - 1]
    }

    /// The register that holds the number of this time, or any.
    fn holder(&self, random: &mut Random, time: usize) -> u8 {
        let found = self.used.iter().copied().find(|&r| self.time(r) == time);
        found.unwrap_or_else(|| *random.pick(&self.used))
    }

    fn model(self, random: &mut Random, states: usize) -> Model {
        let state = State { set: set_of(&self.used), end_mark: 0 };
        let registers = register_count(random, *self.used.last().expect("a register"));
        let states = vec![state; states];
        let mut model = Model { registers, start: 0, states, edges: self.edges };
        tidy(&mut model);
        model
    }
}

pub fn overwrite_pair(random: &mut Random) -> Task {
    let count = random.between(2, 3);
    let used = some_registers(random, count);
    let (mut left, mut right) = (Writer::new(&used), Writer::new(&used));
    // The register that each left register last shared its number with,
    // though that may have been overwritten since.
    let mut last_partner: [u8; MAX_REGISTERS] = [1, 2, 3, 4, 5, 6];
    let writes = random.between(1, 4);
    for step in 0..writes {
        let register = *random.pick(&used);
        let corresponding = right.holder(random, left.time(register));
        let other = if random.chance(50) { corresponding } else { *random.pick(&used) };
        let kind = if random.chance(80) { Kind::GloballyFresh } else { Kind::LocallyFresh };
        left.write(step, kind, register);
        right.write(step, kind, other);
        last_partner[register as usize - 1] = other;
    }
    for tag in 1..=random.between(1, 3) as u8 {
        let register = *random.pick(&used);
        let corresponding = right.holder(random, left.time(register));
        let last = last_partner[register as usize - 1];
        let other = if random.chance(30) { corresponding } else { last };
        left.look(writes, tag, register);
        right.look(writes, tag, other);
    }
    let left = left.model(random, writes + 1);
    let plain = right.model(random, writes + 1);
    let (right, names) = renamed(random, &plain);
    let pairs = pairs_by_name(&left, &names);
    maybe_exchanged(random, Task::new(left, right, pairs))
}
