//! Task bytes (01, "The task file", and 02, ticket 2): the table of record kinds, and reading with the refusals 1 to 10
//! and 15.
use crate::model::{
    Edge, EdgeKind, Model, RegisterSet, State, Task, EDGES, MOST_SEEN, REGISTERS, STATES, TAGS,
};
use std::fmt;

pub const HEADER: u8 = 1;
pub const STATE: u8 = 2;
pub const EDGE: u8 = 3;
pub const PAIR: u8 = 4;
pub const HISTORY: u8 = 5;
pub const END: u8 = 15;

/// A kind of record: its byte, the length of its body, and what reading one does.
pub struct Kind {
    pub byte: u8,
    pub length: usize,
    read: fn(&mut Reading, &[u8]) -> Check,
}

/// A later kind of record is one more row.
#[rustfmt::skip]
pub const KINDS: &[Kind] = &[
    Kind { byte: HEADER,  length: 3, read: Reading::header },
    Kind { byte: STATE,   length: 3, read: Reading::state },
    Kind { byte: EDGE,    length: 5, read: Reading::edge },
    Kind { byte: PAIR,    length: 2, read: Reading::pair },
    Kind { byte: HISTORY, length: 1, read: Reading::history },
    Kind { byte: END,     length: 0, read: Reading::end },
];

pub struct Record<'a> {
    pub at: usize,
    pub kind: &'static Kind,
    pub body: &'a [u8],
}

/// A refusal of 01: its number, the place of the refused record's kind byte, and what was expected, in words. Where a
/// record is missing, the place is where it would begin.
#[derive(Clone, PartialEq, Eq, Debug)]
pub struct Refusal {
    pub number: u8,
    pub at: usize,
    pub words: String,
}

impl Refusal {
    pub fn new(number: u8, at: usize, words: &str) -> Refusal {
        let words = words.into();
        Refusal { number, at, words }
    }
}

impl fmt::Display for Refusal {
    fn fmt(&self, out: &mut fmt::Formatter) -> fmt::Result {
        write!(out, "REFUSED {} at byte {}", self.number, self.at)
    }
}

/// What is wrong with a record, before it is known where the record stands.
struct Fault {
    number: u8,
    words: String,
}

type Check = Result<(), Fault>;

fn require(holds: bool, number: u8, words: impl FnOnce() -> String) -> Check {
    if holds {
        return Ok(());
    }
    let words = words();
    Err(Fault { number, words })
}

/// Reads a task, and gives its records too.
pub fn read(bytes: &[u8]) -> Result<(Task, Vec<Record<'_>>), Refusal> {
    let mut reading = Reading::default();
    let mut records = Vec::new();
    let mut at = 0;
    while at < bytes.len() || !reading.ended {
        let located = |fault: Fault| Refusal {
            number: fault.number,
            at,
            words: fault.words,
        };
        let record = record(bytes, at).map_err(located)?;
        (record.kind.read)(&mut reading, record.body).map_err(located)?;
        at += 1 + record.body.len();
        records.push(record);
    }
    let models = <[Model; 2]>::try_from(reading.models)
        .map_err(|_| Refusal::new(2, at, "expected two models"))?;
    let task = Task {
        models,
        pairs: reading.pairs,
        history: reading.history.unwrap_or(MOST_SEEN),
    };
    Ok((task, records))
}

/// The record that begins at this place.
fn record(bytes: &[u8], at: usize) -> Result<Record<'_>, Fault> {
    let cut = |words: &str| Fault {
        number: 2,
        words: words.into(),
    };
    let byte = *bytes
        .get(at)
        .ok_or(cut("expected an end record, found the end of the file"))?;
    let kind = KINDS
        .iter()
        .find(|kind| kind.byte == byte)
        .ok_or_else(|| Fault {
            number: 1,
            words: format!("expected a kind of record, found {byte}"),
        })?;
    let body = bytes
        .get(at + 1..at + 1 + kind.length)
        .ok_or(cut("expected a whole record, found the end of the file"))?;
    Ok(Record { at, kind, body })
}

/// What has been read so far.
#[derive(Default)]
struct Reading {
    models: Vec<Model>,
    /// How many states of the last header are still to come.
    states_due: usize,
    pairs: Vec<(u8, u8)>,
    history: Option<u8>,
    ended: bool,
}

impl Reading {
    /// The last model has all its states.
    fn complete(&self) -> bool {
        !self.models.is_empty() && self.states_due == 0
    }

    fn both_models(&self) -> bool {
        self.models.len() == 2 && self.complete()
    }

    /// Neither the history's size nor the end has been read.
    fn before_history(&self) -> bool {
        self.history.is_none() && !self.ended
    }

    /// The model that the next state or edge belongs to. There is none before the first header and after the models.
    fn model(&mut self, has_all_states: bool) -> Result<&mut Model, Fault> {
        let open = self.before_history()
            && self.pairs.is_empty()
            && has_all_states == (self.states_due == 0);
        match self.models.last_mut() {
            Some(model) if open => Ok(model),
            _ => Err(misplaced()),
        }
    }

    fn header(&mut self, body: &[u8]) -> Check {
        let (registers, states, start) = (body[0], body[1], body[2]);
        let first = self.models.is_empty();
        let second = self.models.len() == 1 && self.complete();
        require_place(first || second)?;
        require(registers <= REGISTERS, 4, || {
            format!("expected at most {REGISTERS} registers, found {registers}")
        })?;
        require((1..=STATES).contains(&states), 4, || {
            format!("expected 1 to {STATES} states in this model, found {states}")
        })?;
        require(start < states, 4, || {
            format!("expected a start state that exists, found {start}")
        })?;
        self.states_due = states.into();
        self.models.push(Model {
            registers,
            start,
            states: Vec::new(),
            edges: Vec::new(),
        });
        Ok(())
    }

    fn state(&mut self, body: &[u8]) -> Check {
        let (number, set, end) = (body[0], RegisterSet(body[1]), body[2]);
        let model = self.model(false)?;
        let next = model.states.len();
        require(usize::from(number) == next, 5, || {
            format!("expected state {next}, found state {number}")
        })?;
        let unknown = set.registers().find(|&register| register > model.registers);
        require(unknown.is_none(), 5, || {
            let unknown = unknown.unwrap_or_default();
            format!(
                "expected registers that exist (the model has {}), found register {unknown}",
                model.registers
            )
        })?;
        require(end <= 1, 5, || {
            format!("expected end mark 0 or 1, found {end}")
        })?;
        model.states.push(State { set, end });
        self.states_due -= 1;
        Ok(())
    }

    fn edge(&mut self, body: &[u8]) -> Check {
        let model = self.model(true)?;
        let edge = existing_edge(model, body)?;
        check_register_rule(model, &edge)?;
        require(model.edges.last() < Some(&edge), 8, || {
            "expected an edge above the one before it".into()
        })?;
        require(model.edges.len() < EDGES, 9, || {
            format!("expected at most {EDGES} edges in a model, found one more")
        })?;
        model.edges.push(edge);
        Ok(())
    }

    fn pair(&mut self, body: &[u8]) -> Check {
        let (left, right) = (body[0], body[1]);
        require_place(self.both_models() && self.before_history())?;
        for (model, register, side) in [
            (&self.models[0], left, "left"),
            (&self.models[1], right, "right"),
        ] {
            require(model.set(model.start).holds(register), 10, || {
                format!("expected a register that the {side} start state holds, found {register}")
            })?;
        }
        let before = self.pairs.last().map_or(0, |pair| pair.0);
        require(left > before, 10, || {
            format!("expected left registers to rise, found {left} after {before}")
        })?;
        let reused = self.pairs.iter().any(|pair| pair.1 == right);
        require(!reused, 10, || {
            format!("expected a right register of no other pair, found {right} again")
        })?;
        self.pairs.push((left, right));
        Ok(())
    }

    fn history(&mut self, body: &[u8]) -> Check {
        let size = body[0];
        require_place(self.both_models() && self.before_history())?;
        require(size <= MOST_SEEN, 15, || {
            format!("expected a history size from 0 to {MOST_SEEN}, found {size}")
        })?;
        let held = self.held_at_start();
        require(size >= held, 15, || {
            format!(
                "expected a history of at least what the start states hold together, which is {held}, found {size}"
            )
        })?;
        self.history = Some(size);
        Ok(())
    }

    /// The numbers that the two start states hold together: those of a pair are one.
    fn held_at_start(&self) -> u8 {
        let sets = self.models.iter().map(|model| model.set(model.start));
        sets.map(RegisterSet::count).sum::<u8>() - self.pairs.len() as u8
    }

    fn end(&mut self, _: &[u8]) -> Check {
        require_place(self.both_models() && !self.ended)?;
        self.ended = true;
        Ok(())
    }
}

fn misplaced() -> Fault {
    Fault {
        number: 3,
        words: "expected another record at this place".into(),
    }
}

fn require_place(allowed: bool) -> Check {
    if allowed {
        Ok(())
    } else {
        Err(misplaced())
    }
}

/// Refusal 6: everything that an edge names exists.
fn existing_edge(model: &Model, body: &[u8]) -> Result<Edge, Fault> {
    let (from, tag, kind, register, to) = (body[0], body[1], body[2], body[3], body[4]);
    let states = model.states.len();
    for (state, which) in [(from, "from"), (to, "to")] {
        require(usize::from(state) < states, 6, || {
            format!(
                "expected a {which} state from 0 to {}, found {state}",
                states - 1
            )
        })?;
    }
    require(tag < TAGS, 6, || {
        format!("expected a tag from 0 to {}, found {tag}", TAGS - 1)
    })?;
    let kind = *EdgeKind::ALL.get(usize::from(kind)).ok_or_else(|| Fault {
        number: 6,
        words: format!("expected an edge kind from 0 to 2, found {kind}"),
    })?;
    require((1..=model.registers).contains(&register), 6, || {
        format!(
            "expected a register that exists (the model has {}), found register {register}",
            model.registers
        )
    })?;
    Ok(Edge {
        from,
        tag,
        kind,
        register,
        to,
    })
}

/// Refusal 7: a known edge's register is held, and nothing is held afterwards that was neither held nor stored.
fn check_register_rule(model: &Model, edge: &Edge) -> Check {
    let (before, after) = (model.set(edge.from), model.set(edge.to));
    let known = edge.kind == EdgeKind::Known;
    require(!known || before.holds(edge.register), 7, || {
        format!(
            "expected a register that state {} holds, since the edge is known, found {}",
            edge.from, edge.register
        )
    })?;
    let stored = |register| !known && register == edge.register;
    let unfilled = after
        .registers()
        .find(|&register| !before.holds(register) && !stored(register));
    require(unfilled.is_none(), 7, || {
        format!(
            "expected state {} to hold only what state {} holds{}, found register {}",
            edge.to,
            edge.from,
            if known { "" } else { " and what is stored" },
            unfilled.unwrap_or_default()
        )
    })
}
