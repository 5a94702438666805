//! Data types of a task: two fresh-register automata and a matching.

pub const MAX_REGISTERS: usize = 6;
pub const MAX_STATES: usize = 16;
pub const MAX_EDGES: usize = 64;
pub const MAX_TAG: u8 = 31;

/// The greatest history size; it stands for this many numbers or more.
pub const MAX_HISTORY: u8 = 13;

#[derive(Clone, Copy, PartialEq, Eq, PartialOrd, Ord, Hash, Debug)]
pub enum Kind {
    Known,
    LocallyFresh,
    GloballyFresh,
}

impl Kind {
    pub const ALL: [Kind; 3] = [Kind::Known, Kind::LocallyFresh, Kind::GloballyFresh];

    pub fn from_byte(byte: u8) -> Option<Kind> {
        Kind::ALL.get(byte as usize).copied()
    }

    pub fn byte(self) -> u8 {
        self as u8
    }

    pub fn is_fresh(self) -> bool {
        self != Kind::Known
    }

    pub fn name(self) -> &'static str {
        ["known", "local", "global"][self as usize]
    }
}

/// A set of registers; bit 0 is register 1.
#[derive(Clone, Copy, PartialEq, Eq, Hash, Debug, Default)]
pub struct RegisterSet(pub u8);

impl RegisterSet {
    pub fn contains(self, register: u8) -> bool {
        (1..=8).contains(&register) && self.0 >> (register - 1) & 1 == 1
    }

    pub fn with(self, register: u8) -> RegisterSet {
        RegisterSet(self.0 | 1 << (register - 1))
    }

    pub fn is_inside(self, other: RegisterSet) -> bool {
        self.0 & !other.0 == 0
    }

    pub fn iter(self) -> impl Iterator<Item = u8> {
        (1..=8u8).filter(move |r| self.contains(*r))
    }

    pub fn len(self) -> usize {
        self.0.count_ones() as usize
    }

    pub fn is_empty(self) -> bool {
        self.0 == 0
    }
}

/// The numbers that two readers with these sets hold together, where they
/// share this many; a shared number counts once.
pub fn held_together(left: RegisterSet, right: RegisterSet, shared: usize) -> u8 {
    (left.len() + right.len() - shared) as u8
}

#[derive(Clone, Copy, PartialEq, Eq, Debug)]
pub struct State {
    pub set: RegisterSet,
    pub end_mark: u8,
}

#[derive(Clone, Copy, PartialEq, Eq, PartialOrd, Ord, Hash, Debug)]
pub struct Edge {
    pub from: u8,
    pub tag: u8,
    pub kind: Kind,
    pub register: u8,
    pub to: u8,
}

impl Edge {
    pub fn bytes(&self) -> [u8; 5] {
        [self.from, self.tag, self.kind.byte(), self.register, self.to]
    }
}

#[derive(Clone, PartialEq, Eq, Debug)]
pub struct Model {
    pub registers: u8,
    pub start: u8,
    pub states: Vec<State>,
    pub edges: Vec<Edge>,
}

impl Model {
    pub fn set(&self, state: u8) -> RegisterSet {
        self.states[state as usize].set
    }

    pub fn end_mark(&self, state: u8) -> u8 {
        self.states[state as usize].end_mark
    }

    pub fn start_set(&self) -> RegisterSet {
        self.set(self.start)
    }

    /// The edges that start in `state`, with their numbers, in order.
    pub fn edges_from(&self, state: u8) -> impl Iterator<Item = (u8, &Edge)> {
        let numbered = self.edges.iter().enumerate();
        numbered.filter(move |(_, e)| e.from == state).map(|(n, e)| (n as u8, e))
    }

    /// The register rule of the edge's kind (refusal 7 is its absence).
    /// States and register of the edge must exist.
    pub fn keeps_register_rule(&self, edge: &Edge) -> bool {
        let from = self.set(edge.from);
        let to = self.set(edge.to);
        match edge.kind {
            Kind::Known => from.contains(edge.register) && to.is_inside(from),
            _ => to.is_inside(from.with(edge.register)),
        }
    }
}

#[derive(Clone, Copy, PartialEq, Eq, PartialOrd, Ord, Hash, Debug)]
pub enum Side {
    Left,
    Right,
}

impl Side {
    pub const BOTH: [Side; 2] = [Side::Left, Side::Right];

    pub fn other(self) -> Side {
        match self {
            Side::Left => Side::Right,
            Side::Right => Side::Left,
        }
    }

    /// The number the papers give a side: 1 left, 2 right.
    pub fn number(self) -> u8 {
        match self {
            Side::Left => 1,
            Side::Right => 2,
        }
    }

    pub fn from_number(number: u8) -> Option<Side> {
        Side::BOTH.into_iter().find(|s| s.number() == number)
    }
}

#[derive(Clone, PartialEq, Eq, Debug)]
pub struct Task {
    pub left: Model,
    pub right: Model,
    /// Left register, right register; rising by left register.
    pub pairs: Vec<(u8, u8)>,
    /// The history's size, if a record states it.
    pub history_record: Option<u8>,
}

impl Task {
    /// A task without a history record.
    pub fn new(left: Model, right: Model, pairs: Vec<(u8, u8)>) -> Task {
        Task { left, right, pairs, history_record: None }
    }

    /// The history's size at the start.
    pub fn history(&self) -> u8 {
        self.history_record.unwrap_or(MAX_HISTORY)
    }

    /// The numbers that the readers hold together at the start.
    pub fn held_at_start(&self) -> u8 {
        held_together(self.left.start_set(), self.right.start_set(), self.pairs.len())
    }

    pub fn model(&self, side: Side) -> &Model {
        match side {
            Side::Left => &self.left,
            Side::Right => &self.right,
        }
    }

    /// The same task with left and right exchanged.
    pub fn exchanged(&self) -> Task {
        let mut pairs: Vec<(u8, u8)> = self.pairs.iter().map(|&(l, r)| (r, l)).collect();
        pairs.sort();
        let (left, right) = (self.right.clone(), self.left.clone());
        Task { left, right, pairs, history_record: self.history_record }
    }
}

#[derive(Clone, Copy, PartialEq, Eq, Debug)]
pub enum Verdict {
    Equal,
    Differ,
    Follows,
    FallsShort,
}

impl Verdict {
    pub const ALL: [Verdict; 4] =
        [Verdict::Equal, Verdict::Differ, Verdict::Follows, Verdict::FallsShort];

    /// The kind of the records in a certificate for this verdict.
    pub fn kind(self) -> u8 {
        16 + self as u8
    }

    /// Whether the start is never lost.
    pub fn is_kept(self) -> bool {
        matches!(self, Verdict::Equal | Verdict::Follows)
    }

    /// The number used in answers; 0 is kept for "no verdict".
    pub fn number(self) -> u32 {
        match self {
            Verdict::Equal => 1,
            Verdict::Differ => 2,
            Verdict::Follows => 18,
            Verdict::FallsShort => 19,
        }
    }

    pub fn from_number(number: u32) -> Option<Verdict> {
        Verdict::ALL.into_iter().find(|v| v.number() == number)
    }

    pub fn name(self) -> &'static str {
        ["EQUAL", "DIFFER", "FOLLOWS", "FALLS SHORT"][self as usize]
    }

    /// The name without a space, for counts.
    pub fn key(self) -> String {
        self.name().replace(' ', "-")
    }
}

/// One of the numbered refusals, 1 to 15.
#[derive(Clone, Copy, PartialEq, Eq, PartialOrd, Ord, Debug)]
pub struct Refusal(pub u32);
