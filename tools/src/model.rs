//! Reader models and tasks (01, "A reader model").

/// A model has at most this many registers, states and edges.
pub const REGISTERS: u8 = 6;
pub const STATES: u8 = 16;
pub const EDGES: usize = 64;
/// Tags are the numbers below this one.
pub const TAGS: u8 = 32;
/// The greatest history size (02, ticket 2), which means so many numbers or more: one more than two readers hold together.
pub const MOST_SEEN: u8 = 2 * REGISTERS + 1;

#[derive(Clone, Copy, PartialEq, Eq, Debug)]
pub enum Side {
    Left,
    Right,
}

impl Side {
    pub const BOTH: [Side; 2] = [Side::Left, Side::Right];

    pub fn other(self) -> Side {
        match self {
            Side::Left => Side::Right,
            Side::Right => Side::Left,
        }
    }

    pub fn name(self) -> &'static str {
        match self {
            Side::Left => "left",
            Side::Right => "right",
        }
    }

    pub fn index(self) -> usize {
        self as usize
    }
}

/// A set of registers as the task file writes it: bit 0 is register 1.
#[derive(Clone, Copy, PartialEq, Eq, Debug)]
pub struct RegisterSet(pub u8);

impl RegisterSet {
    pub fn holds(self, register: u8) -> bool {
        (1..=8).contains(&register) && self.0 >> (register - 1) & 1 == 1
    }

    pub fn registers(self) -> impl Iterator<Item = u8> {
        (1..=8).filter(move |&register| self.holds(register))
    }

    pub fn count(self) -> u8 {
        self.0.count_ones() as u8
    }
}

#[derive(Clone, Copy, PartialEq, Eq, Debug)]
pub struct State {
    pub set: RegisterSet,
    pub end: u8,
}

#[derive(Clone, Copy, PartialEq, Eq, PartialOrd, Ord, Debug)]
pub enum EdgeKind {
    Known,
    LocallyFresh,
    GloballyFresh,
}

impl EdgeKind {
    /// The kinds at the places that are their bytes in the task file.
    pub const ALL: [EdgeKind; 3] = [
        EdgeKind::Known,
        EdgeKind::LocallyFresh,
        EdgeKind::GloballyFresh,
    ];
}

/// The fields stand in the order of the task file, so that the derived order is the order of the five-byte strings.
#[derive(Clone, Copy, PartialEq, Eq, PartialOrd, Ord, Debug)]
pub struct Edge {
    pub from: u8,
    pub tag: u8,
    pub kind: EdgeKind,
    pub register: u8,
    pub to: u8,
}

impl Edge {
    pub fn body(&self) -> [u8; 5] {
        [self.from, self.tag, self.kind as u8, self.register, self.to]
    }
}

#[derive(Clone, PartialEq, Eq, Debug)]
pub struct Model {
    pub registers: u8,
    pub start: u8,
    pub states: Vec<State>,
    pub edges: Vec<Edge>,
}

impl Model {
    /// The register set of a state; empty for a state that does not exist.
    pub fn set(&self, state: u8) -> RegisterSet {
        self.states
            .get(state as usize)
            .map_or(RegisterSet(0), |s| s.set)
    }
}

#[derive(Clone, PartialEq, Eq, Debug)]
pub struct Task {
    pub models: [Model; 2],
    /// Left register, right register.
    pub pairs: Vec<(u8, u8)>,
    /// How many numbers were seen before the start.
    pub history: u8,
}

impl Task {
    pub fn model(&self, side: Side) -> &Model {
        &self.models[side.index()]
    }
}
