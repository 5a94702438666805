//! Pairs in which a position looks good as long as an unfinished one is
//! believed in.
//!
//! By the first step the left reader goes to 1 or 4, the right one to 1 or
//! 2. Only left 1 and right 2 have the third step, so (1, 1) is lost, and
//! the left reader's 4 is there to reply to right 1. From (1, 1) and from
//! (1, 2) the second step leads to one and the same position, and from there
//! a way leads back to (1, 1); so that position is lost, and with it (1, 2).
//! Who looks at (1, 1) first, believes in it until it is settled, and keeps
//! what was concluded from it, says EQUAL.

use super::models::*;
use super::near::{maybe_exchanged, pairs_by_name};
use crate::model::*;
use crate::random::Random;

/// A step that both readers can take in the same way.
#[derive(Clone, Copy)]
struct Step {
    tag: u8,
    kind: Kind,
    register: u8,
}

impl Step {
    fn edge(self, from: usize, to: usize) -> Edge {
        let Step { tag, kind, register } = self;
        Edge { from: from as u8, tag, kind, register, to: to as u8 }
    }
}

pub fn guess_pair(random: &mut Random) -> Task {
    let count = random.between(1, 2);
    let used = some_registers(random, count);
    let mut tags = [0, 1, 2, 3];
    random.shuffle(&mut tags);
    let mut step =
        |tag: u8| Step { tag, kind: random_kind(random, [3, 2, 1]), register: *random.pick(&used) };
    let [first, second, third, back] = tags.map(&mut step);
    let way = random.below(5);
    let mut left_edges = vec![first.edge(0, 1), second.edge(1, 2), third.edge(1, 3)];
    left_edges.extend(way_back(back, 2, 6, way, 1));
    left_edges.extend([first.edge(0, 4), second.edge(4, 5)]);
    left_edges.extend(way_back(back, 5, 6 + way, way, 4));
    let mut right_edges = vec![first.edge(0, 1), first.edge(0, 2)];
    right_edges.extend([second.edge(1, 3), second.edge(2, 3), third.edge(2, 4)]);
    right_edges.extend(way_back(back, 3, 5, way, 1));
    // Sometimes all can take the third step, and all is equal.
    if random.chance(30) {
        left_edges.push(third.edge(4, 3));
        right_edges.push(third.edge(1, 4));
    }
    let left = model_of(random, &used, 6 + 2 * way, left_edges);
    let (right, names) = {
        let plain = model_of(random, &used, 5 + way, right_edges);
        renamed(random, &plain)
    };
    let pairs = pairs_by_name(&left, &names);
    maybe_exchanged(random, Task::new(left, right, pairs))
}

/// From `from` by way of `length` states, numbered from `next`, to `to`.
fn way_back(step: Step, from: usize, next: usize, length: usize, to: usize) -> Vec<Edge> {
    let mut places = vec![from];
    places.extend(next..next + length);
    places.push(to);
    places.windows(2).map(|two| step.edge(two[0], two[1])).collect()
}

fn model_of(random: &mut Random, used: &[u8], states: usize, edges: Vec<Edge>) -> Model {
    let state = State { set: set_of(used), end_mark: 0 };
    let registers = register_count(random, *used.last().expect("a register"));
    let mut model = Model { registers, start: 0, states: vec![state; states], edges };
    tidy(&mut model);
    model
}
