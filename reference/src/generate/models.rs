//! Random models, and what can be done to a model.

use crate::model::*;
use crate::random::Random;

/// What a random model may look like.
#[derive(Clone, Copy, Debug)]
pub struct Shape {
    pub states: (usize, usize),
    /// How many of the six registers any state holds.
    pub used_registers: (usize, usize),
    pub edges_per_state: (usize, usize),
    pub tags: usize,
    /// Weights of the three edge kinds.
    pub kinds: [usize; 3],
    pub marked_percent: usize,
}

/// Register numbers 1 to 6, some of them, in random choice; which ones are
/// used is spread so that high numbers are as common as low ones.
pub fn some_registers(random: &mut Random, count: usize) -> Vec<u8> {
    let mut all: Vec<u8> = (1..=MAX_REGISTERS as u8).collect();
    random.shuffle(&mut all);
    all.truncate(count);
    all.sort();
    all
}

pub fn set_of(registers: &[u8]) -> RegisterSet {
    registers.iter().fold(RegisterSet::default(), |set, &r| set.with(r))
}

pub fn random_subset(random: &mut Random, set: RegisterSet, keep_percent: usize) -> RegisterSet {
    let kept: Vec<u8> = set.iter().filter(|_| random.chance(keep_percent)).collect();
    set_of(&kept)
}

pub fn random_kind(random: &mut Random, weights: [usize; 3]) -> Kind {
    let list: Vec<(usize, Kind)> = weights.into_iter().zip(Kind::ALL).collect();
    random.weighted(&list)
}

/// A register count that fits the sets and leaves some registers unused.
pub fn register_count(random: &mut Random, highest: u8) -> u8 {
    random.between(highest as usize, MAX_REGISTERS) as u8
}

pub fn random_model(random: &mut Random, shape: &Shape) -> Model {
    let used = random.between(shape.used_registers.0, shape.used_registers.1);
    let used = some_registers(random, used);
    let states = random.between(shape.states.0, shape.states.1);
    let states = (0..states).map(|_| State {
        set: random_subset(random, set_of(&used), 75),
        end_mark: random.chance(shape.marked_percent) as u8,
    });
    let states: Vec<State> = states.collect();
    let registers = register_count(random, used.last().copied().unwrap_or(0));
    let start = random.below(states.len()) as u8;
    let mut model = Model { registers, start, states, edges: Vec::new() };
    for from in 0..model.states.len() as u8 {
        for _ in 0..random.between(shape.edges_per_state.0, shape.edges_per_state.1) {
            model.edges.extend(random_edge(random, &model, from, shape, &used));
        }
    }
    tidy(&mut model);
    model
}

/// An edge from this state that keeps the register rule, if one is found.
fn random_edge(
    random: &mut Random,
    model: &Model,
    from: u8,
    shape: &Shape,
    used: &[u8],
) -> Option<Edge> {
    for _ in 0..20 {
        if used.is_empty() {
            break;
        }
        let kind = random_kind(random, shape.kinds);
        let register = *random.pick(used);
        let tag = random.below(shape.tags) as u8;
        let to = random.below(model.states.len()) as u8;
        let edge = Edge { from, tag, kind, register, to };
        if model.keeps_register_rule(&edge) {
            return Some(edge);
        }
    }
    None
}

/// Sorts the edges, drops doubles and what goes beyond 64.
pub fn tidy(model: &mut Model) {
    model.edges.sort();
    model.edges.dedup();
    model.edges.truncate(MAX_EDGES);
}

/// A model with registers and states renamed, and the register renaming:
/// place i - 1 has the new name of register i.
pub fn renamed(random: &mut Random, model: &Model) -> (Model, [u8; MAX_REGISTERS]) {
    let mut names: [u8; MAX_REGISTERS] = [1, 2, 3, 4, 5, 6];
    random.shuffle(&mut names);
    let mut places: Vec<u8> = (0..model.states.len() as u8).collect();
    random.shuffle(&mut places);
    (renamed_by(random, model, &names, &places), names)
}

fn renamed_by(
    random: &mut Random,
    model: &Model,
    names: &[u8; MAX_REGISTERS],
    places: &[u8],
) -> Model {
    let name = |register: u8| names[register as usize - 1];
    let mut states = model.states.clone();
    for (old, state) in model.states.iter().enumerate() {
        let set = state.set.iter().fold(RegisterSet::default(), |s, r| s.with(name(r)));
        states[places[old] as usize] = State { set, end_mark: state.end_mark };
    }
    let rename_edge = |e: &Edge| Edge {
        from: places[e.from as usize],
        to: places[e.to as usize],
        register: name(e.register),
        ..*e
    };
    let edges: Vec<Edge> = model.edges.iter().map(rename_edge).collect();
    let in_sets = states.iter().fold(0, |all, s| all | s.set.0);
    let highest_held = 8 - in_sets.leading_zeros() as u8;
    let highest = edges.iter().map(|e| e.register).fold(highest_held, u8::max);
    let registers = register_count(random, highest);
    let start = places[model.start as usize];
    let mut copy = Model { registers, start, states, edges };
    tidy(&mut copy);
    copy
}

/// Adds a twin of a state and lets some of the edges into it lead to the
/// twin. This changes nothing that a reader does.
pub fn split_state(random: &mut Random, model: &mut Model) {
    if model.states.len() == MAX_STATES {
        return;
    }
    let old = random.below(model.states.len()) as u8;
    let twin = model.states.len() as u8;
    let outgoing: Vec<Edge> =
        model.edges_from(old).map(|(_, e)| Edge { from: twin, ..*e }).collect();
    if model.edges.len() + outgoing.len() > MAX_EDGES {
        return;
    }
    model.states.push(model.states[old as usize]);
    model.edges.extend(outgoing);
    for edge in &mut model.edges {
        if edge.to == old && random.chance(50) {
            edge.to = twin;
        }
    }
    tidy(model);
}

/// Changes one thing at random; the model stays valid. False if nothing
/// came of it.
pub fn alter(random: &mut Random, model: &mut Model) -> bool {
    if model.edges.is_empty() || random.chance(12) {
        let state = random.below(model.states.len());
        model.states[state].end_mark ^= 1;
        return true;
    }
    let place = random.below(model.edges.len());
    if random.chance(15) {
        model.edges.remove(place);
        return true;
    }
    let Some(edge) = altered_edge(random, model, model.edges[place]) else {
        return false;
    };
    if random.chance(80) {
        model.edges[place] = edge;
    } else if model.edges.len() < MAX_EDGES {
        model.edges.push(edge);
    }
    tidy(model);
    true
}

fn altered_edge(random: &mut Random, model: &Model, edge: Edge) -> Option<Edge> {
    for _ in 0..20 {
        let mut changed = edge;
        match random.below(4) {
            0 => changed.tag = random.below(3) as u8,
            1 => changed.kind = *random.pick(&Kind::ALL),
            2 => changed.register = random.between(1, model.registers as usize) as u8,
            _ => changed.to = random.below(model.states.len()) as u8,
        }
        if changed != edge && model.keeps_register_rule(&changed) {
            return Some(changed);
        }
    }
    None
}
