//! Pairs whose difference shows only after many rounds.

use super::models::*;
use super::near::{maybe_exchanged, pairs_by_name};
use crate::model::*;
use crate::random::Random;

/// A chain of states and a renamed copy that differs in the last state.
pub fn chain_pair(random: &mut Random) -> Task {
    if random.chance(6) {
        return ring_pair_of_two_lengths(random);
    }
    let states = random.weighted(&[(5, 4), (5, 5), (5, 6), (4, 8), (3, 11), (3, 16)]);
    let mut left = spine(random, states, &[[2, 2, 1], [3, 1, 1], [1, 2, 2], [1, 3, 0]]);
    add_backward_edges(random, &mut left);
    let (mut right, names) = renamed(random, &left);
    // The renaming is undone for the states, so that the last one is known.
    let last = last_state_of_copy(&left, &right, &names);
    change_last_state(random, &mut right, last);
    if random.chance(25) {
        split_state(random, &mut right);
    }
    let mut pairs = pairs_by_name(&left, &names);
    if random.chance(6) && !pairs.is_empty() {
        pairs.remove(random.below(pairs.len()));
    }
    maybe_exchanged(random, Task::new(left, right, pairs))
}

/// States 0 to n - 1, each with an edge to the next. The weights of the edge
/// kinds are drawn from a list.
pub fn spine(random: &mut Random, states: usize, kinds: &[[usize; 3]]) -> Model {
    let count = random.between(1, 3);
    let used = some_registers(random, count);
    let weights = *random.pick(kinds);
    let mut set = random_subset(random, set_of(&used), 80);
    let mut sets = vec![set];
    let mut edges = Vec::new();
    for from in 0..states as u8 - 1 {
        let kind = if set.is_empty() { Kind::LocallyFresh } else { random_kind(random, weights) };
        let held: Vec<u8> = set.iter().collect();
        let register = if kind == Kind::Known { *random.pick(&held) } else { *random.pick(&used) };
        let reachable = if kind == Kind::Known { set } else { set.with(register) };
        set = random_subset(random, reachable, 90);
        sets.push(set);
        edges.push(Edge { from, tag: random.below(2) as u8, kind, register, to: from + 1 });
    }
    let states = sets.into_iter().map(|set| State { set, end_mark: 0 }).collect();
    let registers = register_count(random, *used.last().expect("a register"));
    Model { registers, start: 0, states, edges }
}

fn add_backward_edges(random: &mut Random, model: &mut Model) {
    for _ in 0..random.below(6) {
        let from = random.below(model.states.len());
        let to = random.below(from + 1) as u8;
        let kind = *random.pick(&Kind::ALL);
        let register = random.between(1, model.registers as usize) as u8;
        // Tags of their own, so that they do not shorten the chain.
        let tag = random.between(2, 3) as u8;
        let edge = Edge { from: from as u8, tag, kind, register, to };
        if model.keeps_register_rule(&edge) {
            model.edges.push(edge);
        }
    }
    tidy(model);
}

/// Follows the chain in the renamed copy to its end.
fn last_state_of_copy(left: &Model, right: &Model, names: &[u8; MAX_REGISTERS]) -> u8 {
    let mut state = right.start;
    for place in 0..left.states.len() as u8 - 1 {
        let step = left.edges.iter().find(|e| e.from == place && e.to == place + 1);
        let step = step.expect("the chain goes on");
        let register = names[step.register as usize - 1];
        let like = |e: &&Edge| {
            e.from == state && e.tag == step.tag && e.kind == step.kind && e.register == register
        };
        state = right.edges.iter().find(like).expect("the copy goes on").to;
    }
    state
}

fn change_last_state(random: &mut Random, model: &mut Model, last: u8) {
    if random.chance(35) {
        model.states[last as usize].end_mark = 1;
        return;
    }
    let kind = *random.pick(&Kind::ALL);
    let register = random.between(1, model.registers as usize) as u8;
    let tag = random.below(5) as u8;
    let edge = Edge { from: last, tag, kind, register, to: last };
    if model.keeps_register_rule(&edge) && !model.edges.contains(&edge) {
        model.edges.push(edge);
        tidy(model);
    } else {
        model.states[last as usize].end_mark = 1;
    }
}

fn ring_pair_of_two_lengths(random: &mut Random) -> Task {
    let long = random.between(5, 16);
    super::families::rings(long, long - 1)
}
