//! Symbolic positions, attacks and replies.

use crate::model::*;
use crate::rules::Rules;

/// Two states, the partners of left registers 1 to 6 (0 is none) and the
/// history's size. The derived order is the order of the nine position bytes.
#[derive(Clone, Copy, PartialEq, Eq, PartialOrd, Ord, Hash, Debug)]
pub struct Position {
    pub left: u8,
    pub right: u8,
    pub partners: [u8; MAX_REGISTERS],
    pub history: u8,
}

pub const POSITION_LENGTH: usize = 9;

impl Position {
    pub fn start(task: &Task) -> Position {
        let mut partners = [0; MAX_REGISTERS];
        for &(left, right) in &task.pairs {
            partners[left as usize - 1] = right;
        }
        let (left, right) = (task.left.start, task.right.start);
        Position { left, right, partners, history: task.history() }
    }

    pub fn bytes(&self) -> [u8; POSITION_LENGTH] {
        let mut bytes = [0; POSITION_LENGTH];
        bytes[0] = self.left;
        bytes[1] = self.right;
        bytes[2..8].copy_from_slice(&self.partners);
        bytes[8] = self.history;
        bytes
    }

    pub fn from_bytes(bytes: &[u8]) -> Position {
        let mut partners = [0; MAX_REGISTERS];
        partners.copy_from_slice(&bytes[2..8]);
        Position { left: bytes[0], right: bytes[1], partners, history: bytes[8] }
    }

    pub fn state(&self, side: Side) -> u8 {
        match side {
            Side::Left => self.left,
            Side::Right => self.right,
        }
    }

    /// The other side's register with the same number, if there is one.
    pub fn partner(&self, side: Side, register: u8) -> Option<u8> {
        match side {
            Side::Left => Some(self.partners[register as usize - 1]).filter(|&p| p != 0),
            Side::Right => {
                let place = self.partners.iter().position(|&p| p == register)?;
                Some(place as u8 + 1)
            }
        }
    }

    fn part(&mut self, side: Side, register: u8) {
        match side {
            Side::Left => self.partners[register as usize - 1] = 0,
            Side::Right => {
                if let Some(left) = self.partner(Side::Right, register) {
                    self.partners[left as usize - 1] = 0;
                }
            }
        }
    }

    pub fn is_legal(&self, task: &Task) -> bool {
        let states_exist = (self.left as usize) < task.left.states.len()
            && (self.right as usize) < task.right.states.len();
        states_exist && self.partners_are_legal(task) && self.history_is_legal(task)
    }

    /// The states must exist.
    pub fn held_together(&self, task: &Task) -> u8 {
        let shared = self.partners.iter().filter(|&&p| p != 0).count();
        held_together(task.left.set(self.left), task.right.set(self.right), shared)
    }

    fn history_is_legal(&self, task: &Task) -> bool {
        (self.held_together(task)..=MAX_HISTORY).contains(&self.history)
    }

    fn partners_are_legal(&self, task: &Task) -> bool {
        let left_set = task.left.set(self.left);
        let right_set = task.right.set(self.right);
        let mut used = RegisterSet::default();
        for (index, &right) in self.partners.iter().enumerate() {
            if right == 0 {
                continue;
            }
            let held = left_set.contains(index as u8 + 1) && right_set.contains(right);
            if !held || used.contains(right) {
                return false;
            }
            used = used.with(right);
        }
        true
    }

    pub fn is_lost_at_once(&self, rules: Rules, task: &Task) -> bool {
        rules.loses_at_once(task, self.left, self.right)
    }
}

pub const CASE_KNOWN: u8 = 0;
pub const CASE_SEEN: u8 = 7;
pub const CASE_NEW: u8 = 8;

/// The derived order is the order "side, edge, case".
#[derive(Clone, Copy, PartialEq, Eq, PartialOrd, Ord, Hash, Debug)]
pub struct Attack {
    pub side: Side,
    pub edge: u8,
    pub case: u8,
}

impl Attack {
    /// The edge that attacks.
    fn edge_of(self, task: &Task) -> &Edge {
        &task.model(self.side).edges[self.edge as usize]
    }
}

/// The id cases of an edge of `side` in this position, rising.
fn cases(task: &Task, position: &Position, side: Side, edge: &Edge) -> Vec<u8> {
    match edge.kind {
        Kind::Known => vec![CASE_KNOWN],
        Kind::GloballyFresh => vec![CASE_NEW],
        Kind::LocallyFresh => {
            let other = side.other();
            let held = task.model(other).set(position.state(other));
            let mut list: Vec<u8> =
                held.iter().filter(|&j| position.partner(other, j).is_none()).collect();
            // A number that was seen and is held by neither.
            if position.history > position.held_together(task) {
                list.push(CASE_SEEN);
            }
            list.push(CASE_NEW);
            list
        }
    }
}

/// All attacks of a position, in order of side, edge, case.
pub fn attacks(rules: Rules, task: &Task, position: &Position) -> Vec<Attack> {
    let mut list = Vec::new();
    for &side in rules.attackers {
        for (number, edge) in task.model(side).edges_from(position.state(side)) {
            for case in cases(task, position, side, edge) {
                list.push(Attack { side, edge: number, case });
            }
        }
    }
    list
}

/// The attack with these bytes, side, edge and case, if there is such a side,
/// such an edge of it and such a case at all; it need not exist in any
/// position.
pub fn named_attack(task: &Task, [side, edge, case]: [u8; 3]) -> Option<Attack> {
    let side = Side::from_number(side)?;
    let named = (edge as usize) < task.model(side).edges.len() && case <= CASE_NEW;
    named.then_some(Attack { side, edge, case })
}

/// The attack with these bytes, if it exists in the position.
pub fn existing_attack(
    rules: Rules,
    task: &Task,
    position: &Position,
    bytes: [u8; 3],
) -> Option<Attack> {
    let attack = named_attack(task, bytes).filter(|a| rules.attacks(a.side))?;
    let edge = attack.edge_of(task);
    let starts_here = edge.from == position.state(attack.side);
    let exists = starts_here && cases(task, position, attack.side, edge).contains(&attack.case);
    exists.then_some(attack)
}

/// Whether the other side's edge with this number is a reply to the attack:
/// there is such an edge, it starts in the other side's state, has the
/// attack's tag and takes the attack's number. Nothing else about the attack
/// and the position is asked, not even whether they could come about.
pub fn is_reply(task: &Task, position: &Position, attack: Attack, number: u8) -> bool {
    let (edge, other) = (attack.edge_of(task), attack.side.other());
    let Some(reply) = task.model(other).edges.get(number as usize) else {
        return false;
    };
    if reply.from != position.state(other) || reply.tag != edge.tag {
        return false;
    }
    let known_of = |j: u8| reply.kind == Kind::Known && reply.register == j;
    match attack.case {
        CASE_KNOWN => match position.partner(attack.side, edge.register) {
            Some(j) => known_of(j),
            // Only the attacker holds the number, so it is fresh to the
            // other reader, but it is in the history.
            None => reply.kind == Kind::LocallyFresh,
        },
        CASE_SEEN => reply.kind == Kind::LocallyFresh,
        CASE_NEW => reply.kind.is_fresh(),
        j => known_of(j),
    }
}

/// The position after an attack and the reply with this edge number. Any bytes
/// of a position will do; what comes of them means something only where the
/// position is legal and the attack exists in it.
fn after(task: &Task, position: &Position, attack: Attack, number: u8) -> Position {
    let (side, other) = (attack.side, attack.side.other());
    let (edge, reply) = (attack.edge_of(task), &task.model(other).edges[number as usize]);
    let mut next = *position;
    if edge.kind.is_fresh() {
        next.part(side, edge.register);
    }
    if reply.kind.is_fresh() {
        next.part(other, reply.register);
    }
    let (left, right) = match side {
        Side::Left => (edge, reply),
        Side::Right => (reply, edge),
    };
    next.partners[left.register as usize - 1] = right.register;
    next.left = left.to;
    next.right = right.to;
    if attack.case == CASE_NEW {
        next.history = position.history.saturating_add(1).min(MAX_HISTORY);
    }
    let (left_set, right_set) = (task.left.set(left.to), task.right.set(right.to));
    for (index, partner) in next.partners.iter_mut().enumerate() {
        if !left_set.contains(index as u8 + 1) || !right_set.contains(*partner) {
            *partner = 0;
        }
    }
    next
}

/// A reply: the number of its edge, and where the round then leads.
#[derive(Clone, Copy, PartialEq, Eq, Debug)]
pub struct Reply {
    pub edge: u8,
    pub leads_to: Position,
}

/// The reply with the least edge number from `from` on; None if no edge from
/// there on is a reply. A position is made only for an edge that is one.
pub fn first_reply(task: &Task, position: &Position, attack: Attack, from: u8) -> Option<Reply> {
    let edges = task.model(attack.side.other()).edges.len() as u8;
    let edge = (from..edges).find(|&number| is_reply(task, position, attack, number))?;
    Some(Reply { edge, leads_to: after(task, position, attack, edge) })
}

/// All replies to an attack, by edge number: the search goes on behind each
/// one that it found.
pub fn replies(task: &Task, position: &Position, attack: Attack) -> Vec<Reply> {
    let from = |number: u8| first_reply(task, position, attack, number);
    std::iter::successors(from(0), |found| from(found.edge.checked_add(1)?)).collect()
}
