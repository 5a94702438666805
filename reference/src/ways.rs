//! The two ways in which the compared library tells whether a position was
//! found before. The papers know neither, and no answer, table or buffer may
//! differ between them. They are here so that tables can be lent on both
//! sides of where they part, and cases counted by them.

use crate::compare::whole_entries;
use crate::model::{Task, MAX_HISTORY};

#[derive(Clone, Copy, PartialEq, Eq, Debug)]
pub enum Way {
    /// One bit for each position that the task could have.
    Bits,
    /// Chains of the positions that share a hash.
    Chains,
}

/// The bits that an entry of the table has room for: five of its 13 bytes.
const BITS_AN_ENTRY: u64 = 40;

/// The values that a left register's partner can have in a key.
const PARTNERS: u64 = 8;

/// The keys that positions of the task can have: both states, a partner for
/// each left register, and a history from the start's size up to 13.
pub fn possible_keys(task: &Task) -> u64 {
    let states = task.left.states.len() * task.right.states.len();
    let sizes = MAX_HISTORY + 1 - task.history();
    states as u64 * PARTNERS.pow(task.left.registers as u32) * sizes as u64
}

/// The fewest entries in which the bits fit.
pub fn limit(task: &Task) -> usize {
    possible_keys(task).div_ceil(BITS_AN_ENTRY) as usize
}

/// Whether a table of so many bytes has just these entries, "at" the limit, or
/// one fewer or more.
pub fn beside_limit(task: &Task, table: usize) -> Option<&'static str> {
    let (entries, limit) = (whole_entries(table), limit(task));
    match entries {
        n if n + 1 == limit => Some("below"),
        n if n == limit => Some("at"),
        n if n == limit + 1 => Some("above"),
        _ => None,
    }
}

impl Way {
    /// The way that is taken with a table of so many bytes.
    pub fn of(task: &Task, table: usize) -> Way {
        match whole_entries(table) >= limit(task) {
            true => Way::Bits,
            false => Way::Chains,
        }
    }

    pub fn name(self) -> &'static str {
        ["bits", "chains"][self as usize]
    }
}
