//! Certificate bytes (01, "Verdict, table, certificate", and 02, ticket 2): positions, kept or lost, with refusal 13. The
//! kind says by which game; that a check takes the kinds of one game alone is no matter here.
use crate::game::Game;
use crate::model::{Side, Task, MOST_SEEN, REGISTERS};
use crate::task::Refusal;

/// The bytes of a position in a record, and those of attack and rounds after it.
const POSITION: usize = HISTORY + 1;
const HISTORY: usize = 2 + REGISTERS as usize;
const ATTACK_AND_ROUNDS: usize = 3 + 4;

/// Two states, the partner of each left register (0 is none), and how many numbers were seen. The derived order is that of
/// the bytes.
#[derive(Clone, Copy, PartialEq, Eq, PartialOrd, Ord, Debug)]
pub struct Position {
    pub states: [u8; 2],
    pub partners: [u8; REGISTERS as usize],
    pub history: u8,
}

impl Position {
    pub fn start(task: &Task) -> Position {
        let mut partners = [0; REGISTERS as usize];
        for &(left, right) in &task.pairs {
            partners[usize::from(left) - 1] = right;
        }
        Position {
            states: [task.models[0].start, task.models[1].start],
            partners,
            history: task.history,
        }
    }

    fn of(bytes: &[u8]) -> Position {
        let mut partners = [0; REGISTERS as usize];
        partners.copy_from_slice(&bytes[2..HISTORY]);
        Position {
            states: [bytes[0], bytes[1]],
            partners,
            history: bytes[HISTORY],
        }
    }

    /// The left registers that have a partner, with it.
    pub fn pairs(&self) -> impl Iterator<Item = (u8, u8)> + '_ {
        let numbered = (1..).zip(self.partners);
        numbered.filter(|&(_, right)| right != 0)
    }

    fn is_legal(&self, task: &Task) -> bool {
        let exists =
            |side: Side| usize::from(self.states[side.index()]) < task.model(side).states.len();
        let set = |side: Side| task.model(side).set(self.states[side.index()]);
        let (left_set, right_set) = (set(Side::Left), set(Side::Right));
        let used = |partner| self.pairs().filter(|pair| pair.1 == partner).count();
        let joins = |(left, right): (u8, u8)| {
            left_set.holds(left) && right_set.holds(right) && used(right) == 1
        };
        Side::BOTH.into_iter().all(exists)
            && self.pairs().all(joins)
            && self.history <= MOST_SEEN
            && usize::from(self.history) + self.pairs().count()
                >= usize::from(left_set.count() + right_set.count())
    }
}

/// A lost position, with the attack as the record names it: side, edge, case.
#[derive(Clone, PartialEq, Eq, Debug)]
pub struct Loss {
    /// Where the record begins.
    pub at: usize,
    pub position: Position,
    pub attack: [u8; 3],
    pub rounds: u32,
}

#[derive(Clone, PartialEq, Eq, Debug)]
pub struct Certificate {
    pub game: Game,
    pub list: List,
}

#[derive(Clone, PartialEq, Eq, Debug)]
pub enum List {
    /// Kept positions, each with the place where its record begins.
    Kept(Vec<(usize, Position)>),
    Lost(Vec<Loss>),
}

/// A kind of record: its game, and the bytes after a position, which kept ones do not have.
struct Kind {
    game: Game,
    rest: usize,
}

impl Kind {
    fn of(byte: u8) -> Option<Kind> {
        let (game, rest) = match byte {
            16 => (Game::Equality, 0),
            17 => (Game::Equality, ATTACK_AND_ROUNDS),
            18 => (Game::OneWay, 0),
            19 => (Game::OneWay, ATTACK_AND_ROUNDS),
            _ => return None,
        };
        Some(Kind { game, rest })
    }
}

fn refused<T>(at: usize, words: &str) -> Result<T, Refusal> {
    Err(Refusal::new(13, at, words))
}

/// The empty certificate is a list of no kept positions, in whatever game.
const KIND_OF_NONE: u8 = 16;

/// Reads a certificate of a task.
pub fn read(task: &Task, bytes: &[u8]) -> Result<Certificate, Refusal> {
    let byte = bytes.first().copied().unwrap_or(KIND_OF_NONE);
    let Some(Kind { game, rest }) = Kind::of(byte) else {
        return refused(0, "expected records of kind 16, 17, 18 or 19");
    };
    let length = 1 + POSITION + rest;
    let mut records = Vec::new();
    for (index, record) in bytes.chunks(length).enumerate() {
        let at = index * length;
        if record[0] != byte {
            return refused(at, "expected records of one kind");
        }
        if record.len() != length {
            return refused(at, "expected a whole record, found the end of the file");
        }
        let position = Position::of(&record[1..]);
        if !position.is_legal(task) {
            return refused(at, "expected a position that is legal in this task");
        }
        records.push((at, position, &record[1 + POSITION..]));
    }
    if let Some(pair) = records.windows(2).find(|pair| pair[0].1 >= pair[1].1) {
        return refused(pair[1].0, "expected positions that rise");
    }
    let list = match rest {
        0 => List::Kept(records.iter().map(|record| (record.0, record.1)).collect()),
        _ => List::Lost(records.into_iter().map(loss).collect()),
    };
    Ok(Certificate { game, list })
}

fn loss((at, position, rest): (usize, Position, &[u8])) -> Loss {
    Loss {
        at,
        position,
        attack: [rest[0], rest[1], rest[2]],
        rounds: u32::from_be_bytes([rest[3], rest[4], rest[5], rest[6]]),
    }
}
