//! Rounds with actual numbers (01, "Rounds with actual numbers"). No rule for positions is used here: an edge takes a
//! number or not, and a position is what a setting shows of equal numbers.
use crate::certificate::Position;
use crate::model::{Edge, EdgeKind, Model, Side, Task, MOST_SEEN, REGISTERS};

/// The id cases that are no register of the other side.
const SEEN_BEFORE: u8 = REGISTERS + 1;
const NEVER_SEEN: u8 = REGISTERS + 2;

/// A state, and the numbers in the registers of its set.
#[derive(Clone, Copy, PartialEq, Eq, Debug)]
pub struct Reader {
    pub state: u8,
    numbers: [Option<u32>; REGISTERS as usize],
}

impl Reader {
    /// The number in a register.
    pub fn number(&self, register: u8) -> Option<u32> {
        let place = usize::from(register).checked_sub(1)?;
        *self.numbers.get(place)?
    }

    /// The registers that hold a number, with it.
    pub fn held(&self) -> impl Iterator<Item = (u8, u32)> + '_ {
        let numbered = (1..).zip(self.numbers);
        numbered.filter_map(|(register, number)| Some((register, number?)))
    }

    /// The register that holds this number.
    pub fn register_of(&self, number: u32) -> Option<u8> {
        let mut held = self.held();
        held.find(|held| held.1 == number).map(|held| held.0)
    }

    /// The reader after an edge that took this number.
    fn after(&self, model: &Model, edge: &Edge, number: u32) -> Reader {
        let mut numbers = self.numbers;
        if edge.kind != EdgeKind::Known {
            numbers[usize::from(edge.register) - 1] = Some(number);
        }
        for register in 1..=REGISTERS {
            if !model.set(edge.to).holds(register) {
                numbers[usize::from(register) - 1] = None;
            }
        }
        Reader {
            state: edge.to,
            numbers,
        }
    }
}

/// Why an edge does not take a number.
#[derive(Clone, Copy, PartialEq, Eq, Debug)]
pub enum Hindrance {
    /// A known edge whose register holds another number, or none.
    RegisterHolds(Option<u32>),
    /// A locally fresh edge, and this register holds the number.
    HeldIn(u8),
    /// A globally fresh edge, and the number was seen before.
    Seen,
}

/// An edge of the replying reader that has the attack's tag, by its number in the model: where it leads, or why it does not take the
/// number.
pub struct Answer {
    pub edge: usize,
    pub leads: Result<Setting, Hindrance>,
}

/// The numbers seen so far are 1 to `seen`: new ones are always chosen as small as possible.
#[derive(Clone, Copy, PartialEq, Eq, Debug)]
pub struct Setting {
    readers: [Reader; 2],
    seen: u32,
}

impl Setting {
    /// The setting of a legal position with numbers from 1 up: left registers, then right registers without partner,
    /// then the rest of the history. Of the greatest size, which means so many numbers or more, it has so many.
    pub fn over(task: &Task, position: &Position) -> Setting {
        let mut readers = position.states.map(|state| Reader {
            state,
            numbers: [None; REGISTERS as usize],
        });
        let mut next = 1..;
        for side in Side::BOTH {
            let state = position.states[side.index()];
            for register in task.model(side).set(state).registers() {
                let partner = position.pairs().find(|pair| pair.1 == register);
                let shared = match (side, partner) {
                    (Side::Right, Some((left, _))) => readers[0].number(left),
                    _ => None,
                };
                let number = shared.or_else(|| next.next());
                readers[side.index()].numbers[usize::from(register) - 1] = number;
            }
        }
        let seen = position.history.into();
        Setting { readers, seen }
    }

    pub fn reader(&self, side: Side) -> &Reader {
        &self.readers[side.index()]
    }

    pub fn seen(&self) -> u32 {
        self.seen
    }

    /// Whether a reader holds this number now.
    pub fn holds(&self, side: Side, number: u32) -> bool {
        self.reader(side).register_of(number).is_some()
    }

    pub fn end_marks(&self, task: &Task) -> [u8; 2] {
        Side::BOTH.map(|side| {
            let state = usize::from(self.reader(side).state);
            task.model(side).states[state].end
        })
    }

    /// The position: which registers of the two readers hold the same number, and how many were seen.
    pub fn position(&self) -> Position {
        let mut partners = [0; REGISTERS as usize];
        for (register, number) in self.reader(Side::Left).held() {
            let partner = self.reader(Side::Right).register_of(number);
            partners[usize::from(register) - 1] = partner.unwrap_or(0);
        }
        Position {
            states: self.readers.map(|reader| reader.state),
            partners,
            history: self.seen.min(MOST_SEEN.into()) as u8,
        }
    }

    /// The edges of a side that start where it is, with their numbers.
    pub fn edges<'a>(
        &self,
        task: &'a Task,
        side: Side,
    ) -> impl Iterator<Item = (usize, &'a Edge)> + 'a {
        let state = self.reader(side).state;
        let numbered = task.model(side).edges.iter().enumerate();
        numbered.filter(move |(_, edge)| edge.from == state)
    }

    /// The number of an id case: a held one, or the smallest that fits. None if the edge has no such case.
    pub fn number(&self, side: Side, edge: &Edge, case: u8) -> Option<u32> {
        let holds = |side: Side, number: &u32| self.holds(side, *number);
        match (edge.kind, case) {
            (EdgeKind::Known, 0) => self.reader(side).number(edge.register),
            (EdgeKind::LocallyFresh, 1..=REGISTERS) => {
                let number = self.reader(side.other()).number(case);
                number.filter(|number| !holds(side, number))
            }
            (EdgeKind::LocallyFresh, SEEN_BEFORE) => (1..=self.seen)
                .find(|number| !holds(Side::Left, number) && !holds(Side::Right, number)),
            (EdgeKind::LocallyFresh | EdgeKind::GloballyFresh, NEVER_SEEN) => Some(self.seen + 1),
            _ => None,
        }
    }

    /// Why an edge of this side does not take a number; nothing if it takes it.
    pub fn hindrance(&self, side: Side, edge: &Edge, number: u32) -> Option<Hindrance> {
        let reader = self.reader(side);
        match edge.kind {
            EdgeKind::Known => {
                let held = reader.number(edge.register);
                (held != Some(number)).then_some(Hindrance::RegisterHolds(held))
            }
            EdgeKind::LocallyFresh => reader.register_of(number).map(Hindrance::HeldIn),
            EdgeKind::GloballyFresh => (number <= self.seen).then_some(Hindrance::Seen),
        }
    }

    /// What the other side can do when an edge of this side takes a number.
    pub fn answers(&self, task: &Task, side: Side, edge: &Edge, number: u32) -> Vec<Answer> {
        let same_tag = |answer: &(usize, &Edge)| answer.1.tag == edge.tag;
        let edges = self.edges(task, side.other()).filter(same_tag);
        let answer = |(k, reply): (usize, &Edge)| Answer {
            edge: k,
            leads: match self.hindrance(side.other(), reply, number) {
                Some(hindrance) => Err(hindrance),
                None => Ok(self.after(task, side, edge, reply, number)),
            },
        };
        edges.map(answer).collect()
    }

    fn after(&self, task: &Task, side: Side, edge: &Edge, reply: &Edge, number: u32) -> Setting {
        let edges = match side {
            Side::Left => [edge, reply],
            Side::Right => [reply, edge],
        };
        Setting {
            readers: Side::BOTH.map(|side| {
                let reader = self.reader(side);
                reader.after(task.model(side), edges[side.index()], number)
            }),
            seen: self.seen.max(number),
        }
    }
}
