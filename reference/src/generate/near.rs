//! Unrelated small pairs, and pairs that are nearly equal.

use super::models::*;
use crate::model::*;
use crate::random::Random;

fn small_shape(random: &mut Random) -> Shape {
    Shape {
        states: (1, 4),
        used_registers: (0, 3),
        edges_per_state: (0, 3),
        tags: random.between(1, 2),
        kinds: *random.pick(&[[2, 2, 1], [1, 3, 1], [3, 1, 0], [1, 1, 3]]),
        marked_percent: *random.pick(&[0, 0, 0, 15]),
    }
}

/// Two models that have nothing to do with each other.
pub fn unrelated(random: &mut Random) -> Task {
    let shape = small_shape(random);
    let left = random_model(random, &shape);
    let right = random_model(random, &shape);
    let pairs = random_pairs(random, &left, &right);
    Task::new(left, right, pairs)
}

/// Some registers of the start states, joined at random.
pub fn random_pairs(random: &mut Random, left: &Model, right: &Model) -> Vec<(u8, u8)> {
    let mut free: Vec<u8> = right.start_set().iter().collect();
    random.shuffle(&mut free);
    let mut pairs = Vec::new();
    for register in left.start_set().iter() {
        if random.chance(70) {
            pairs.extend(free.pop().map(|partner| (register, partner)));
        }
    }
    pairs
}

/// The pairs that a renaming makes of the start state's registers.
pub fn pairs_by_name(left: &Model, names: &[u8; MAX_REGISTERS]) -> Vec<(u8, u8)> {
    left.start_set().iter().map(|r| (r, names[r as usize - 1])).collect()
}

fn near_shape(random: &mut Random) -> Shape {
    Shape {
        states: (2, 6),
        used_registers: (1, 3),
        edges_per_state: (1, 3),
        tags: random.between(1, 3),
        kinds: *random.pick(&[[2, 2, 1], [3, 2, 0], [1, 1, 1], [3, 1, 1]]),
        marked_percent: *random.pick(&[0, 0, 20]),
    }
}

/// Many registers; few edges, so that the positions stay few.
fn wide_shape() -> Shape {
    Shape {
        states: (1, 3),
        used_registers: (4, 6),
        edges_per_state: (1, 3),
        tags: 3,
        kinds: [4, 1, 1],
        marked_percent: 10,
    }
}

/// A model and a renamed copy; in about half the cases altered.
pub fn near_pair(random: &mut Random) -> Task {
    let shape = if random.chance(10) { wide_shape() } else { near_shape(random) };
    let mut left = random_model(random, &shape);
    start_where_something_is_held(random, &mut left);
    let (mut right, names) = renamed(random, &left);
    let mut pairs = pairs_by_name(&left, &names);
    for _ in 0..random.below(3) {
        split_state(random, &mut right);
    }
    if random.chance(45) {
        let changes = random.weighted(&[(4, 1), (2, 2), (1, 3)]);
        for _ in 0..changes {
            alter(random, &mut right);
        }
    }
    if random.chance(24) && !pairs.is_empty() {
        pairs.remove(random.below(pairs.len()));
    }
    maybe_exchanged(random, Task::new(left, right, pairs))
}

fn start_where_something_is_held(random: &mut Random, model: &mut Model) {
    let holding: Vec<u8> =
        (0..model.states.len() as u8).filter(|&s| !model.set(s).is_empty()).collect();
    if !holding.is_empty() && random.chance(85) {
        model.start = *random.pick(&holding);
    }
}

pub fn maybe_exchanged(random: &mut Random, task: Task) -> Task {
    if random.chance(50) {
        task.exchanged()
    } else {
        task
    }
}
