//! Layouts begun from scratch: pairs in which it matters how many numbers
//! were seen.
//!
//! Where a locally fresh edge meets a globally fresh one, only a number that
//! was seen before and is held by neither shows a difference. Whether there
//! is one depends on the history at the start and on the new numbers that
//! were taken on the way.

use super::chains::spine;
use super::models::*;
use super::near::{maybe_exchanged, pairs_by_name};
use crate::model::*;
use crate::random::Random;

pub fn blank_pair(random: &mut Random) -> Task {
    let (left, right) = match random.below(4) {
        0 => altered_chain(random),
        1 => crossed_readers(random),
        _ => growing_readers(random),
    };
    let (right, names) = renamed(random, &right);
    let pairs = pairs_by_name(&left, &names);
    let task = maybe_exchanged(random, Task::new(left, right, pairs));
    let size = task.held_at_start() + random.weighted(&[(6, 0), (3, 1), (2, 2), (1, 3)]);
    Task { history_record: Some(size.min(MAX_HISTORY)), ..task }
}

/// A chain of states, and the same with some globally fresh edges in place
/// of locally fresh ones.
fn altered_chain(random: &mut Random) -> (Model, Model) {
    let states = random.between(2, 6);
    let left = spine(random, states, &[[0, 1, 0], [1, 4, 0], [1, 3, 1]]);
    let mut right = left.clone();
    for _ in 0..random.between(1, 2) {
        make_global(random, &mut right);
    }
    (left, right)
}

/// A chain of states in which each step fills one more register, so that
/// nothing is let go of; but a loop on the way, if there is one, writes over
/// a number. In the last state, and sometimes on the way, a locally fresh
/// edge meets a globally fresh one.
fn growing_readers(random: &mut Random) -> (Model, Model) {
    const STEP: u8 = 0;
    const LAST: u8 = 1;
    const LOOP: u8 = 2;
    let (held, steps) = (random.below(3), random.between(1, 4));
    let mut names = some_registers(random, held + steps);
    let registers = register_count(random, *names.last().expect("a register"));
    random.shuffle(&mut names);
    let sets = (held..=held + steps).map(|count| set_of(&names[..count]));
    let mut states: Vec<State> = sets.map(|set| State { set, end_mark: 0 }).collect();
    // The last edge leads out of the chain, or back to where it begins.
    states.push(states[steps]);
    let out = if random.chance(60) { steps + 1 } else { steps };
    let local = |from: usize, tag: u8, register: u8, to: usize| {
        let (from, to) = (from as u8, to as u8);
        Edge { from, tag, kind: Kind::LocallyFresh, register, to }
    };
    let on_the_way = (0..steps).map(|step| local(step, STEP, names[held + step], step + 1));
    let mut edges: Vec<Edge> = on_the_way.collect();
    edges.push(local(steps, LAST, *random.pick(&names), out));
    if random.chance(50) {
        let state = random.between(1, steps);
        edges.push(local(state, LOOP, *random.pick(&names[..held + state]), state));
    }
    let mut left = Model { registers, start: 0, states, edges };
    tidy(&mut left);
    let mut right = left.clone();
    for edge in &mut right.edges {
        if edge.tag == LAST || edge.tag == STEP && random.chance(40) {
            edge.kind = Kind::GloballyFresh;
        }
    }
    tidy(&mut right);
    (left, right)
}

/// A locally and a globally fresh edge lead to two states, and from these
/// again a locally and a globally fresh edge lead on, in one reader the other
/// way round. A new number can be replied to by the edge of the other kind,
/// a number that was seen cannot. So it matters that only a new number leaves
/// one more number behind.
fn crossed_readers(random: &mut Random) -> (Model, Model) {
    let held = random.below(2);
    let names = some_registers(random, held + 1);
    let registers = register_count(random, *names.last().expect("a register"));
    let (few, all) = (set_of(&names[..held]), set_of(&names));
    let states: Vec<State> =
        [few, all, all, all].map(|set| State { set, end_mark: 0 }).into_iter().collect();
    let (first, second) = (names[held], *random.pick(&names));
    let reader = |kinds: [Kind; 2]| {
        let edge = |from, tag, kind, register, to| Edge { from, tag, kind, register, to };
        let edges = vec![
            edge(0, 0, Kind::LocallyFresh, first, 1),
            edge(0, 0, Kind::GloballyFresh, first, 2),
            edge(1, 1, kinds[0], second, 3),
            edge(2, 1, kinds[1], second, 3),
        ];
        Model { registers, start: 0, states: states.clone(), edges }
    };
    let left = reader([Kind::LocallyFresh, Kind::GloballyFresh]);
    (left, reader([Kind::GloballyFresh, Kind::LocallyFresh]))
}

/// Turns one locally fresh edge into a globally fresh one.
fn make_global(random: &mut Random, model: &mut Model) {
    let local: Vec<usize> = (0..model.edges.len())
        .filter(|&place| model.edges[place].kind == Kind::LocallyFresh)
        .collect();
    if !local.is_empty() {
        model.edges[*random.pick(&local)].kind = Kind::GloballyFresh;
        tidy(model);
    }
}
