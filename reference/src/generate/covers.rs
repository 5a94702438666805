//! Readers that take every number whatever they hold, and large reach.
//!
//! In a cover every state has, for each of its tags, locally fresh edges and
//! one known edge for every register held, all to the same state. So two
//! covers over the same graph are equal whatever their register sets and
//! their matching are. This makes the two kinds of edge meet.

use super::models::*;
use super::near::{maybe_exchanged, random_pairs};
use crate::model::*;
use crate::random::Random;

/// For each state, for each tag, where the edges lead.
type Graph = Vec<Vec<u8>>;

pub fn cover_pair(random: &mut Random) -> Task {
    if random.chance(50) {
        return cover_chain_pair(random);
    }
    let states = random.between(1, 3);
    let tags = random.between(1, 2);
    let graph: Graph =
        (0..states).map(|_| (0..tags).map(|_| random.below(states) as u8).collect()).collect();
    let mut left = cover(random, &graph);
    let mut right = cover(random, &graph);
    if random.chance(60) {
        alter(random, &mut right);
    }
    if random.chance(15) {
        alter(random, &mut left);
    }
    let pairs = random_pairs(random, &left, &right);
    maybe_exchanged(random, Task::new(left, right, pairs))
}

/// Covers over a chain that differ in the end mark of the last state, or in
/// a globally fresh edge that leads elsewhere.
fn cover_chain_pair(random: &mut Random) -> Task {
    let states = random.between(2, 6);
    let last = states - 1;
    let graph: Graph = (0..states).map(|s| vec![(s + 1).min(last) as u8]).collect();
    let mut left = cover(random, &graph);
    let mut right = cover(random, &graph);
    right.states[last].end_mark = 1;
    let by_edge = random.chance(40);
    left.states[last].end_mark = by_edge as u8;
    if by_edge {
        left.edges.push(Edge {
            from: random.below(last) as u8,
            tag: 0,
            kind: Kind::GloballyFresh,
            register: random.between(1, left.registers as usize) as u8,
            to: random.below(states) as u8,
        });
        tidy(&mut left);
    }
    let pairs = random_pairs(random, &left, &right);
    maybe_exchanged(random, Task::new(left, right, pairs))
}

/// Every state has the same set, so that every edge keeps its rule.
fn cover(random: &mut Random, graph: &Graph) -> Model {
    let used = random.weighted(&[(2, 0), (3, 1), (3, 2), (1, 3)]);
    let used = some_registers(random, used);
    let set = set_of(&used);
    let dropped = random.between(1, MAX_REGISTERS) as u8;
    let highest = used.last().copied().unwrap_or(0).max(dropped);
    let registers = register_count(random, highest);
    let mut edges = Vec::new();
    for (from, row) in graph.iter().enumerate() {
        for (tag, &to) in row.iter().enumerate() {
            let (from, tag) = (from as u8, tag as u8);
            let edge = |kind, register| Edge { from, tag, kind, register, to };
            edges.extend(used.iter().map(|&r| edge(Kind::Known, r)));
            edges.push(edge(Kind::LocallyFresh, dropped));
            if !used.is_empty() && random.chance(50) {
                edges.push(edge(Kind::LocallyFresh, *random.pick(&used)));
            }
            if random.chance(25) {
                edges.push(edge(Kind::GloballyFresh, dropped));
            }
        }
    }
    let states = graph.iter().map(|_| State { set, end_mark: 0 }).collect();
    let mut model = Model { registers, start: 0, states, edges };
    tidy(&mut model);
    model
}

/// All states hold the same two to five registers, and fresh edges write
/// all of them, so that most matchings are reached.
pub fn reach_pair(random: &mut Random) -> Task {
    if random.chance(2) {
        return long_certificate(random);
    }
    let sizes = [
        (40, (2, 3)),
        (40, (3, 2)),
        (25, (3, 3)),
        (12, (4, 1)),
        (5, (4, 2)),
        (3, (5, 1)),
        (1, (5, 2)),
    ];
    let (registers, states) = random.weighted(&sizes);
    let known_percent = *random.pick(&[0, 30, 100]);
    let left = writer(random, registers, states, known_percent);
    let right = writer(random, registers, states, known_percent);
    let pairs = random_pairs(random, &left, &right);
    Task::new(left, right, pairs)
}

/// The same without a register to spare: a good part of the positions that
/// the task could have is reached.
pub fn dense_pair(random: &mut Random) -> Task {
    let sizes = [(20, (1, 1)), (20, (1, 4)), (30, (2, 1)), (30, (2, 3)), (25, (3, 2)), (5, (4, 1))];
    let (registers, states) = random.weighted(&sizes);
    let used: Vec<u8> = (1..=registers).collect();
    let known_percent = *random.pick(&[0, 30, 100]);
    let left = writer_of(random, &used, states, known_percent);
    let right = writer_of(random, &used, states, known_percent);
    let pairs = random_pairs(random, &left, &right);
    Task::new(left, right, pairs)
}

/// Up to 4,000 positions, and more than 64,000 bytes of certificate: refused
/// with 12 by the program `compare`. Some that are a little smaller, too.
fn long_certificate(random: &mut Random) -> Task {
    let (states, registers, replies) = *random.pick(&[(14, 6, 3), (13, 5, 4), (13, 6, 3)]);
    super::families::listed(states, registers, replies)
}

fn writer(random: &mut Random, count: usize, states: usize, known_percent: usize) -> Model {
    let used = some_registers(random, count);
    let mut model = writer_of(random, &used, states, known_percent);
    model.registers = register_count(random, model.registers);
    model
}

/// All states hold these registers, which rise, and there are no others.
fn writer_of(random: &mut Random, used: &[u8], states: usize, known_percent: usize) -> Model {
    let set = set_of(used);
    let mut edges = Vec::new();
    for from in 0..states as u8 {
        for &register in used {
            let to = random.below(states) as u8;
            let fresh = if random.chance(10) { Kind::GloballyFresh } else { Kind::LocallyFresh };
            edges.push(Edge { from, tag: 0, kind: fresh, register, to });
            if random.chance(known_percent) {
                edges.push(Edge { from, tag: 0, kind: Kind::Known, register, to });
            }
        }
    }
    let states = (0..states).map(|_| State { set, end_mark: 0 }).collect();
    let registers = *used.last().expect("a register");
    let mut model = Model { registers, start: 0, states, edges };
    tidy(&mut model);
    model
}
