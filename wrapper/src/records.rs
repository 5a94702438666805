//! Certificates, record by record.
use super::{Verdict, KEPT_LENGTH, LOST_LENGTH, POSITION_LENGTH};
use std::fmt;

/// Two states, the partners of left registers 1 to 6 (0 is none) and the history's size, of which [`MOST_SEEN`] means so many
/// numbers or more. Positions rise as their bytes do.
///
/// [`MOST_SEEN`]: super::MOST_SEEN
#[derive(Clone, Copy, PartialEq, Eq, PartialOrd, Ord, Hash, Debug)]
pub struct Position {
    pub left: u8,
    pub right: u8,
    pub partners: [u8; 6],
    pub history: u8,
}

impl Position {
    pub fn from_bytes(bytes: [u8; POSITION_LENGTH]) -> Position {
        let [left, right, partners @ .., history] = bytes;
        Position { left, right, partners, history }
    }

    pub fn bytes(&self) -> [u8; POSITION_LENGTH] {
        let [a, b, c, d, e, f] = self.partners;
        [self.left, self.right, a, b, c, d, e, f, self.history]
    }
}

#[derive(Clone, Copy, PartialEq, Eq, PartialOrd, Ord, Hash, Debug)]
pub enum Side {
    Left,
    Right,
}

impl Side {
    pub fn number(self) -> u8 {
        match self {
            Side::Left => 1,
            Side::Right => 2,
        }
    }

    fn from_number(number: u8) -> Option<Side> {
        [Side::Left, Side::Right].into_iter().find(|side| side.number() == number)
    }
}

/// Which number an attack takes.
#[derive(Clone, Copy, PartialEq, Eq, PartialOrd, Ord, Hash, Debug)]
pub enum Case {
    /// Case 0: the one in the known edge's register.
    Held,
    /// Cases 1 to 6: the one that only the other reader holds, in this register.
    Private(u8),
    /// Case 7: one that was seen before, and that neither reader holds. Where the history is no larger than the numbers that
    /// the readers hold together there is none.
    Seen,
    /// Case 8: one that was never seen. The history's size rises by one.
    New,
}

impl Case {
    pub fn number(self) -> u8 {
        match self {
            Case::Held => 0,
            Case::Private(register) => register,
            Case::Seen => 7,
            Case::New => 8,
        }
    }

    fn from_number(number: u8) -> Option<Case> {
        match number {
            0 => Some(Case::Held),
            1..=6 => Some(Case::Private(number)),
            7 => Some(Case::Seen),
            8 => Some(Case::New),
            _ => None,
        }
    }
}

#[derive(Clone, Copy, PartialEq, Eq, PartialOrd, Ord, Hash, Debug)]
pub struct Attack {
    pub side: Side,
    /// The number of the side's edge.
    pub edge: u8,
    pub case: Case,
}

#[derive(Clone, Copy, PartialEq, Eq, Hash, Debug)]
pub enum Record {
    /// Kinds 16 and 18: the position is never lost.
    Kept { position: Position },
    /// Kinds 17 and 19: the position is lost within these rounds by this attack; in 0 rounds by its end marks and without
    /// one.
    Lost { position: Position, attack: Option<Attack>, rounds: u32 },
}

impl Record {
    pub fn position(&self) -> Position {
        match *self {
            Record::Kept { position } | Record::Lost { position, .. } => position,
        }
    }
}

/// As the program `compare` prints it.
impl fmt::Display for Record {
    fn fmt(&self, f: &mut fmt::Formatter) -> fmt::Result {
        f.write_str(match self {
            Record::Kept { .. } => "KEPT",
            Record::Lost { .. } => "LOST",
        })?;
        self.position().bytes().iter().try_for_each(|byte| write!(f, " {byte}"))?;
        if let Record::Lost { attack, rounds, .. } = self {
            let [side, edge, case] = attack.map_or([0; 3], |a| [a.side.number(), a.edge, a.case.number()]);
            write!(f, " {side} {edge} {case} {rounds}")?;
        }
        Ok(())
    }
}

/// The records of a certificate, in order. All of them for one that the comparer wrote or the checker accepted; of other
/// bytes, those before the first that make no record.
#[derive(Clone, Debug)]
pub struct Records<'a> {
    rest: &'a [u8],
}

pub fn records(certificate: &[u8]) -> Records<'_> {
    Records { rest: certificate }
}

impl Iterator for Records<'_> {
    type Item = Record;

    fn next(&mut self) -> Option<Record> {
        let (record, length) = match Verdict::from_number(*self.rest.first()?) {
            Some(verdict) if verdict.keeps() => (kept(self.rest), KEPT_LENGTH),
            Some(_) => (lost(self.rest), LOST_LENGTH),
            None => (None, 0),
        };
        self.rest = match record {
            Some(_) => &self.rest[length..],
            None => &[],
        };
        record
    }
}

/// Where the attack's fields stand in a record, after kind and position, and where rounds stand.
const ATTACK: usize = 1 + POSITION_LENGTH;
const ROUNDS: usize = ATTACK + 3;

fn position(record: &[u8]) -> Option<Position> {
    Some(Position::from_bytes(record.get(1..ATTACK)?.try_into().ok()?))
}

fn kept(record: &[u8]) -> Option<Record> {
    Some(Record::Kept { position: position(record)? })
}

fn lost(record: &[u8]) -> Option<Record> {
    let rounds = u32::from_be_bytes(record.get(ROUNDS..LOST_LENGTH)?.try_into().ok()?);
    let attack = match (rounds, &record[ATTACK..ROUNDS]) {
        (0, [0, 0, 0]) => None,
        (0, _) => return None,
        (_, fields) => Some(attack(fields)?),
    };
    Some(Record::Lost { position: position(record)?, attack, rounds })
}

fn attack(fields: &[u8]) -> Option<Attack> {
    let &[side, edge, case] = fields else {
        return None;
    };
    Some(Attack { side: Side::from_number(side)?, edge, case: Case::from_number(case)? })
}
