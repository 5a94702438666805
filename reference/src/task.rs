//! The task file: reader with refusals 1 to 10 and 15, and a writer.
//!
//! The reader takes one record after the other. For each record it asks the
//! refusals in checking order, so the first one that applies is given.

use crate::model::*;

pub const HEADER: u8 = 1;
pub const STATE: u8 = 2;
pub const EDGE: u8 = 3;
pub const PAIR: u8 = 4;
pub const HISTORY: u8 = 5;
pub const END: u8 = 15;

/// Length of a record's body, or None for a kind that does not exist.
pub fn body_length(kind: u8) -> Option<usize> {
    match kind {
        HEADER | STATE => Some(3),
        EDGE => Some(5),
        PAIR => Some(2),
        HISTORY => Some(1),
        END => Some(0),
        _ => None,
    }
}

/// A model while its records arrive.
struct Partial {
    announced_states: usize,
    model: Model,
}

impl Partial {
    fn has_all_states(&self) -> bool {
        self.model.states.len() == self.announced_states
    }
}

#[derive(Default)]
struct Reader {
    /// The left model, then the right one.
    models: Vec<Partial>,
    pairs: Vec<(u8, u8)>,
    history_record: Option<u8>,
    ended: bool,
}

pub fn read(bytes: &[u8]) -> Result<Task, Refusal> {
    let mut reader = Reader::default();
    let mut rest = bytes;
    while let Some((&kind, after_kind)) = rest.split_first() {
        let length = body_length(kind).ok_or(Refusal(1))?;
        if after_kind.len() < length {
            return Err(Refusal(2));
        }
        let (body, next) = after_kind.split_at(length);
        if !reader.allows(kind) {
            return Err(Refusal(3));
        }
        reader.take(kind, body)?;
        rest = next;
    }
    if !reader.ended {
        return Err(Refusal(2));
    }
    Ok(reader.finish())
}

impl Reader {
    /// Whether a record of this kind may stand at this place.
    fn allows(&self, kind: u8) -> bool {
        if self.ended {
            return false;
        }
        if self.history_record.is_some() {
            return kind == END;
        }
        let complete = self.models.last().is_some_and(Partial::has_all_states);
        let both_complete = self.models.len() == 2 && complete;
        match kind {
            HEADER => self.models.is_empty() || self.models.len() == 1 && complete,
            STATE => !self.models.is_empty() && !complete,
            EDGE => complete && self.pairs.is_empty(),
            PAIR | HISTORY | END => both_complete,
            _ => false,
        }
    }

    fn take(&mut self, kind: u8, body: &[u8]) -> Result<(), Refusal> {
        match kind {
            HEADER => self.take_header(body),
            STATE => self.take_state(body),
            EDGE => self.take_edge(body),
            PAIR => self.take_pair(body),
            HISTORY => self.take_history(body[0]),
            _ => {
                self.ended = true;
                Ok(())
            }
        }
    }

    fn current(&mut self) -> &mut Partial {
        self.models.last_mut().expect("a header came before")
    }

    fn take_header(&mut self, body: &[u8]) -> Result<(), Refusal> {
        let (registers, states, start) = (body[0], body[1], body[2]);
        let registers_fit = registers as usize <= MAX_REGISTERS;
        let states_fit = (1..=MAX_STATES).contains(&(states as usize));
        if !registers_fit || !states_fit || start >= states {
            return Err(Refusal(4));
        }
        let model = Model { registers, start, states: Vec::new(), edges: Vec::new() };
        self.models.push(Partial { announced_states: states as usize, model });
        Ok(())
    }

    fn take_state(&mut self, body: &[u8]) -> Result<(), Refusal> {
        let model = &mut self.current().model;
        let (number, set, end_mark) = (body[0], body[1], body[2]);
        let is_next = number as usize == model.states.len();
        let set_exists = set as u32 >> model.registers == 0;
        if !is_next || !set_exists || end_mark > 1 {
            return Err(Refusal(5));
        }
        model.states.push(State { set: RegisterSet(set), end_mark });
        Ok(())
    }

    fn take_edge(&mut self, body: &[u8]) -> Result<(), Refusal> {
        let model = &mut self.current().model;
        let edge = existing_edge(model, body).ok_or(Refusal(6))?;
        if !model.keeps_register_rule(&edge) {
            return Err(Refusal(7));
        }
        if model.edges.last().is_some_and(|before| edge.bytes() <= before.bytes()) {
            return Err(Refusal(8));
        }
        if model.edges.len() == MAX_EDGES {
            return Err(Refusal(9));
        }
        model.edges.push(edge);
        Ok(())
    }

    fn take_pair(&mut self, body: &[u8]) -> Result<(), Refusal> {
        let (left, right) = (body[0], body[1]);
        let held = self.models[0].model.start_set().contains(left)
            && self.models[1].model.start_set().contains(right);
        let rises = self.pairs.iter().all(|&(l, _)| l < left);
        let reuses = self.pairs.iter().any(|&(_, r)| r == right);
        if !held || !rises || reuses {
            return Err(Refusal(10));
        }
        self.pairs.push((left, right));
        Ok(())
    }

    fn take_history(&mut self, size: u8) -> Result<(), Refusal> {
        let [left, right] = [0, 1].map(|side: usize| self.models[side].model.start_set());
        let held = held_together(left, right, self.pairs.len());
        if !(held..=MAX_HISTORY).contains(&size) {
            return Err(Refusal(15));
        }
        self.history_record = Some(size);
        Ok(())
    }

    fn finish(self) -> Task {
        let mut models = self.models.into_iter().map(|m| m.model);
        let left = models.next().expect("left model");
        let right = models.next().expect("right model");
        Task { left, right, pairs: self.pairs, history_record: self.history_record }
    }
}

/// The edge, if its states, tag, kind and register all exist.
fn existing_edge(model: &Model, body: &[u8]) -> Option<Edge> {
    let states = model.states.len() as u8;
    let kind = Kind::from_byte(body[2])?;
    let edge = Edge { from: body[0], tag: body[1], kind, register: body[3], to: body[4] };
    let exists = edge.from < states
        && edge.to < states
        && edge.tag <= MAX_TAG
        && (1..=model.registers).contains(&edge.register);
    exists.then_some(edge)
}

/// One record, as bytes.
pub fn record(kind: u8, body: &[u8]) -> Vec<u8> {
    let mut bytes = vec![kind];
    bytes.extend_from_slice(body);
    bytes
}

/// The records of a model, in file order.
pub fn model_records(model: &Model) -> Vec<Vec<u8>> {
    let header = [model.registers, model.states.len() as u8, model.start];
    let mut records = vec![record(HEADER, &header)];
    for (number, state) in model.states.iter().enumerate() {
        records.push(record(STATE, &[number as u8, state.set.0, state.end_mark]));
    }
    for edge in &model.edges {
        records.push(record(EDGE, &edge.bytes()));
    }
    records
}

/// The records of a task, in file order. Nothing is checked here, so that
/// damaged tasks can be written too.
pub fn records(task: &Task) -> Vec<Vec<u8>> {
    let mut all = model_records(&task.left);
    all.extend(model_records(&task.right));
    for &(left, right) in &task.pairs {
        all.push(record(PAIR, &[left, right]));
    }
    all.extend(task.history_record.map(|size| record(HISTORY, &[size])));
    all.push(record(END, &[]));
    all
}

pub fn write(task: &Task) -> Vec<u8> {
    records(task).concat()
}
