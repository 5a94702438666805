//! Named families for measurements, by name and sizes.

use super::models::{set_of, tidy};
use crate::model::*;

/// Name, sizes it takes, what it is.
pub const FAMILIES: &[(&str, &str, &str)] = &[
    ("dearest", "R", "one state, R registers held, a locally fresh loop for each; DIFFER"),
    ("dearest-equal", "R", "dearest with a known loop for each register too; EQUAL"),
    ("ring", "S R", "S states, R registers held, locally fresh edges; large reach, DIFFER"),
    ("ring-equal", "S R", "S states, R registers held, known and fresh edges; large reach, EQUAL"),
    ("ring-late", "S R", "ring-equal with an end mark on one state of each side; many rounds"),
    ("chain", "N", "N states in a row, end mark on the last of one side; N - 1 rounds"),
    ("rings", "A B", "rings of A and B states, A > B coprime; A + B - 2 rounds if A = B + 1"),
    ("rings-fresh", "A B R", "rings with R registers held and globally fresh edges; large reach"),
    ("listed", "S R W", "S states in a row, R registers held, W replies; all is lost and listed"),
    ("filling", "S R", "ring-late behind a row of R states, the first of which holds nothing"),
    ("filling-equal", "S R", "the same with locally fresh and known edges, no end marks; EQUAL"),
    ("last", "A B", "A and B states, no registers, readers in the last ones; 1 position, EQUAL"),
    ("exact", "N", "N positions exactly, where 15 looping states can add up to it; EQUAL"),
    ("forks", "S R", "S states in a row, several replies, two of them to one position; EQUAL"),
    ("forks-late", "S R", "forks with an end mark on the left reader's last state; S - 1 rounds"),
];

pub fn family(name: &str, sizes: &[usize]) -> Result<Task, String> {
    let fits = |limits: &[(usize, usize)]| {
        sizes.len() == limits.len()
            && sizes.iter().zip(limits).all(|(s, (low, high))| (low..=high).contains(&s))
    };
    let none = || format!("no family {name} with sizes {sizes:?}");
    match name {
        "dearest" if fits(&[(0, 6)]) => Ok(dearest(sizes[0], false)),
        "dearest-equal" if fits(&[(0, 6)]) => Ok(dearest(sizes[0], true)),
        "ring" if fits(&[(1, 16), (1, 6)]) => Ok(ring(sizes[0], sizes[1], false)),
        "ring-equal" if fits(&[(1, 16), (1, 6)]) => Ok(ring(sizes[0], sizes[1], true)),
        "ring-late" if fits(&[(1, 16), (1, 6)]) => Ok(ring_late(sizes[0], sizes[1])),
        "chain" if fits(&[(1, 16)]) => Ok(chain(sizes[0])),
        "rings" if fits(&[(2, 16), (2, 16)]) => Ok(rings(sizes[0], sizes[1])),
        "rings-fresh" if fits(&[(2, 16), (2, 16), (1, 6)]) => {
            Ok(rings_fresh(sizes[0], sizes[1], sizes[2]))
        }
        "listed" if fits(&[(2, 16), (1, 6), (1, 4)]) && sizes[2] <= sizes[1] => {
            Ok(listed(sizes[0], sizes[1], sizes[2]))
        }
        "filling" if fits(&[(1, 15), (1, 5)]) && sizes[0] + sizes[1] <= MAX_STATES => {
            Ok(filling(sizes[0], sizes[1]))
        }
        "filling-equal" if fits(&[(1, 15), (1, 5)]) && sizes[0] + sizes[1] <= MAX_STATES => {
            filling_equal(sizes[0], sizes[1]).ok_or_else(none)
        }
        "last" if fits(&[(1, 16), (1, 16)]) => Ok(last(sizes[0], sizes[1])),
        "exact" if fits(&[(1, 20_000)]) => exact(sizes[0]).ok_or_else(none),
        "forks" if fits(&[(1, 15), (0, 4)]) => Ok(forks(sizes[0], sizes[1])),
        "forks-late" if fits(&[(1, 15), (0, 4)]) => Ok(forks_late(sizes[0], sizes[1])),
        _ => Err(none()),
    }
}

fn first_registers(count: usize) -> Vec<u8> {
    (1..=count as u8).collect()
}

fn uniform_states(count: usize, registers: usize) -> Vec<State> {
    vec![State { set: set_of(&first_registers(registers)), end_mark: 0 }; count]
}

/// Both models have one state that holds all registers and a locally fresh
/// loop with tag 0 for each; no pairs. With `known` there is a known loop
/// with tag 0 for each register too, and so a reply to every attack.
fn dearest(registers: usize, known: bool) -> Task {
    let mut edges = Vec::new();
    for register in first_registers(registers) {
        let loop_of = |kind| Edge { from: 0, tag: 0, kind, register, to: 0 };
        edges.push(loop_of(Kind::LocallyFresh));
        if known {
            edges.push(loop_of(Kind::Known));
        }
    }
    let states = uniform_states(1, registers);
    let mut model = Model { registers: registers as u8, start: 0, states, edges };
    tidy(&mut model);
    Task::new(model.clone(), model, Vec::new())
}

/// A ring of `states` states that all hold the same registers. The left
/// reader always steps on; the right one steps on or stays, so that every
/// pair of states is reached. Which registers a state can write turns with
/// the state, because 64 edges are not enough for all of them.
///
/// With locally fresh edges a number that only the other reader holds cannot
/// be replied to; with globally fresh ones every attack has a reply.
fn ring(states: usize, registers: usize, equal: bool) -> Task {
    let kind = if equal { Kind::GloballyFresh } else { Kind::LocallyFresh };
    let left = ring_model(states, registers, kind, |_| true);
    let right = ring_model(states, registers, kind, |place| place % 2 == 0);
    Task::new(left, right, Vec::new())
}

/// The ring of equal readers, but for an end mark on the last state of each.
/// The right reader can stay behind, so this shows, but it takes its time.
fn ring_late(states: usize, registers: usize) -> Task {
    let mut task = ring(states, registers, true);
    task.left.states[states - 1].end_mark = 1;
    task.right.states[states - 1].end_mark = 1;
    task
}

fn ring_model(
    states: usize,
    registers: usize,
    kind: Kind,
    steps_on: impl Fn(usize) -> bool,
) -> Model {
    let per_state = (MAX_EDGES / states).min(registers);
    let edges = ring_edges(states, registers, per_state, kind, steps_on);
    let states = uniform_states(states, registers);
    let mut model = Model { registers: registers as u8, start: 0, states, edges };
    tidy(&mut model);
    model
}

fn ring_edges(
    states: usize,
    registers: usize,
    per_state: usize,
    kind: Kind,
    steps_on: impl Fn(usize) -> bool,
) -> Vec<Edge> {
    let mut edges = Vec::new();
    for from in 0..states {
        for place in 0..per_state {
            let register = ((from + place) % registers + 1) as u8;
            let to = if steps_on(place) { (from + 1) % states } else { from };
            edges.push(Edge { from: from as u8, tag: 0, kind, register, to: to as u8 });
        }
    }
    edges
}

/// The late ring, but both readers begin with no number: before the ring
/// stands a state for each register, and the first of them holds none.
fn filling(states: usize, registers: usize) -> Task {
    let ring = ring_late(states, registers);
    Task::new(behind_a_row(ring.left), behind_a_row(ring.right), Vec::new())
}

/// Behind such rows, rings with known edges for all registers and locally
/// fresh ones for as many as 64 edges allow: every attack has a reply, and
/// the history's size need not rise. None if no locally fresh edge is left.
fn filling_equal(states: usize, registers: usize) -> Option<Task> {
    let per_state = (MAX_EDGES - registers) / states;
    let writing = per_state.checked_sub(registers)?.min(registers);
    let model = |steps_on: fn(usize) -> bool| {
        let edges = |count, kind| ring_edges(states, registers, count, kind, steps_on);
        let edges = [edges(writing, Kind::LocallyFresh), edges(registers, Kind::Known)].concat();
        let states = uniform_states(states, registers);
        behind_a_row(Model { registers: registers as u8, start: 0, states, edges })
    };
    let task = Task::new(model(|_| true), model(|place| place % 2 == 0), Vec::new());
    (writing > 0).then_some(task)
}

/// The model behind a row of states, each of which writes the next register.
fn behind_a_row(ring: Model) -> Model {
    let row = ring.registers;
    let mut states: Vec<State> =
        (0..row).flat_map(|held| uniform_states(1, held as usize)).collect();
    states.extend(ring.states);
    let writing = (0..row).map(|from| Edge {
        from,
        tag: 0,
        kind: Kind::GloballyFresh,
        register: from + 1,
        to: from + 1,
    });
    let moved = ring.edges.iter().map(|e| Edge { from: e.from + row, to: e.to + row, ..*e });
    let edges = writing.chain(moved).collect();
    let mut model = Model { registers: row, start: 0, states, edges };
    tidy(&mut model);
    model
}

/// Known edges of register 1 through `states` states in a row or in a ring.
fn known_path(states: usize, closed: bool) -> Model {
    let steps = if closed { states } else { states - 1 };
    let edges = (0..steps).map(|from| Edge {
        from: from as u8,
        tag: 0,
        kind: Kind::Known,
        register: 1,
        to: ((from + 1) % states) as u8,
    });
    let mut model =
        Model { registers: 1, start: 0, states: uniform_states(states, 1), edges: edges.collect() };
    tidy(&mut model);
    model
}

/// Two equal chains but for the end mark of the last state: one round fewer
/// than there are states.
pub fn chain(states: usize) -> Task {
    let left = known_path(states, false);
    let mut right = left.clone();
    right.states[states - 1].end_mark = 1;
    Task::new(left, right, vec![(1, 1)])
}

/// Two rings, each with one end mark, on state B - 1. If A = B + 1, the
/// words of end marks that the rings spell agree on A + B - 2 places, which
/// is the most that two words of coprime periods A and B can agree on
/// without being equal (Fine and Wilf).
pub fn rings(long: usize, short: usize) -> Task {
    let (left, right) = (known_path(long, true), known_path(short, true));
    Task { pairs: vec![(1, 1)], ..marked_rings(left, right) }
}

/// The same rings, where each step writes one of several registers: as many
/// rounds, with very many positions.
fn rings_fresh(long: usize, short: usize, registers: usize) -> Task {
    let ring = |states| ring_model(states, registers, Kind::GloballyFresh, |_| true);
    marked_rings(ring(long), ring(short))
}

fn marked_rings(mut left: Model, mut right: Model) -> Task {
    let marked = right.states.len() - 1;
    let marked_left = marked.min(left.states.len() - 1);
    left.states[marked_left].end_mark = 1;
    right.states[marked].end_mark = 1;
    Task::new(left, right, Vec::new())
}

/// Two chains of states. The left reader has one globally fresh edge in each
/// state and so one attack, the right one has several replies. The left end
/// mark at the end differs, so every position is lost; and as the left
/// attacks lead to all positions, every one is listed.
pub fn listed(states: usize, registers: usize, replies: usize) -> Task {
    let chain = |width: usize| {
        let mut edges = Vec::new();
        for from in 0..states - 1 {
            for place in 0..width {
                let register = ((from + place) % registers + 1) as u8;
                let (from, to) = (from as u8, from as u8 + 1);
                edges.push(Edge { from, tag: 0, kind: Kind::GloballyFresh, register, to });
            }
        }
        let states = uniform_states(states, registers);
        let mut model = Model { registers: registers as u8, start: 0, states, edges };
        tidy(&mut model);
        model
    };
    let (mut left, right) = (chain(1), chain(replies));
    left.states[states - 1].end_mark = 1;
    Task::new(left, right, Vec::new())
}

/// No state but the last is ever reached. Where no smaller history is stated,
/// no position of such models has a greater key (ways.rs), so its bit is the
/// last one.
fn last(left: usize, right: usize) -> Task {
    let model = |states: usize| Model {
        registers: 0,
        start: states as u8 - 1,
        states: uniform_states(states, 0),
        edges: Vec::new(),
    };
    Task::new(model(left), model(right), Vec::new())
}

/// Positions reached by two equal states that hold 0 to 5 registers and have
/// a fresh loop for each.
const LOOPING: [usize; 6] = [1, 2, 7, 34, 209, 1546];

/// A start state, from which a tag of its own leads to each of the states
/// whose positions add up to the rest. None if these are too many.
fn exact(positions: usize) -> Option<Task> {
    let mut held = Vec::new();
    let mut rest = positions - 1;
    for registers in (0..LOOPING.len()).rev() {
        held.extend(vec![registers; rest / LOOPING[registers]]);
        rest %= LOOPING[registers];
    }
    let mut states = uniform_states(1, LOOPING.len() - 1);
    let mut edges = Vec::new();
    for (place, &registers) in held.iter().enumerate() {
        let state = place as u8 + 1;
        let edge = |from, tag, register| Edge {
            from,
            tag,
            kind: Kind::GloballyFresh,
            register,
            to: state,
        };
        states.extend(uniform_states(1, registers));
        // Register 6 is held by no state, so the way in pairs nothing.
        edges.push(edge(0, state, 6));
        edges.extend(first_registers(registers).into_iter().map(|r| edge(state, 0, r)));
    }
    let mut model = Model { registers: 6, start: 0, states, edges };
    tidy(&mut model);
    let fits = model.states.len() <= MAX_STATES && model.edges.len() <= MAX_EDGES;
    fits.then(|| Task::new(model.clone(), model, Vec::new()))
}

/// Two chains of states in which every attack has several replies, and two
/// of them lead to one position. No reply is edge 0, nor edge 1.
fn forks(states: usize, registers: usize) -> Task {
    let (left, right) = (fork_model(states, registers, 2), fork_model(states, registers, 3));
    Task::new(left, right, Vec::new())
}

/// All replies to an attack of the left reader lead one step on.
fn forks_late(states: usize, registers: usize) -> Task {
    let mut task = forks(states, registers);
    task.left.states[states].end_mark = 1;
    task
}

/// A chain from state 1 on, by globally fresh edges: each state can write
/// registers that are held, and has two edges that drop the number, which
/// lead to one position. State 0 is never reached; its edges, `aside` of
/// them, are the first ones of the model. Where 64 edges are not enough for
/// all registers, those that a state can write turn with the state.
fn fork_model(states: usize, registers: usize, aside: u8) -> Model {
    const DROPPING: [u8; 2] = [5, 6];
    let edge = |from: usize, tag: u8, register: u8, to: usize| {
        let (from, to) = (from as u8, to as u8);
        Edge { from, tag, kind: Kind::GloballyFresh, register, to }
    };
    let steps = states - 1;
    let room = (MAX_EDGES - aside as usize) / steps.max(1);
    let writing = registers.min(room - DROPPING.len());
    let mut edges: Vec<Edge> = (0..aside).map(|tag| edge(0, tag, DROPPING[0], 0)).collect();
    for from in 1..=steps {
        let written = (0..writing).map(|place| ((from + place) % registers + 1) as u8);
        edges.extend(written.chain(DROPPING).map(|register| edge(from, 0, register, from + 1)));
    }
    let states = uniform_states(states + 1, registers);
    let mut model = Model { registers: 6, start: 1, states, edges };
    tidy(&mut model);
    model
}
