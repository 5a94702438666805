//! History records: which size a task states.

use crate::model::{Task, MAX_HISTORY};
use crate::random::Random;

/// How a stated size stands to the numbers that the readers hold together at
/// the start. 13 is a class of its own, however many are held; of the others
/// the first one that fits counts.
#[derive(Clone, Copy, PartialEq, Eq, Debug)]
pub enum SizeClass {
    /// No other number was seen.
    Held,
    OneAbove,
    /// One below the greatest.
    Twelve,
    Between,
    Thirteen,
    NoRecord,
}

impl SizeClass {
    pub const ALL: [SizeClass; 6] = [
        SizeClass::Held,
        SizeClass::OneAbove,
        SizeClass::Twelve,
        SizeClass::Between,
        SizeClass::Thirteen,
        SizeClass::NoRecord,
    ];

    pub fn name(self) -> &'static str {
        ["held", "held+1", "12", "between", "13", "no-record"][self as usize]
    }

    pub fn of(task: &Task) -> SizeClass {
        let held = task.held_at_start();
        match task.history_record {
            None => SizeClass::NoRecord,
            Some(MAX_HISTORY) => SizeClass::Thirteen,
            Some(size) if size == held => SizeClass::Held,
            Some(size) if size == held + 1 => SizeClass::OneAbove,
            Some(size) if size + 1 == MAX_HISTORY => SizeClass::Twelve,
            Some(_) => SizeClass::Between,
        }
    }
}

/// How often each class is drawn, in parts of 100. Most tasks are as they
/// were before there was a record.
const CLASSES: [(usize, SizeClass); 6] = [
    (50, SizeClass::NoRecord),
    (12, SizeClass::Thirteen),
    (13, SizeClass::Held),
    (10, SizeClass::OneAbove),
    (8, SizeClass::Between),
    (7, SizeClass::Twelve),
];

/// The task with a record, or without one. Each size up to 13 can have as
/// many positions again, so where readers hold many numbers and write all of
/// their registers, `only_large` leaves out sizes below 12.
pub fn with_history(random: &mut Random, task: Task, only_large: bool) -> Task {
    let held = task.held_at_start();
    let class = match random.weighted(&CLASSES) {
        SizeClass::Held | SizeClass::OneAbove | SizeClass::Between if only_large => {
            SizeClass::Twelve
        }
        class => class,
    };
    let history_record = match class {
        SizeClass::NoRecord => None,
        SizeClass::Thirteen => Some(MAX_HISTORY),
        SizeClass::Twelve => Some(MAX_HISTORY - 1),
        SizeClass::Held => Some(held),
        SizeClass::OneAbove => Some(held + 1),
        SizeClass::Between => Some(between(random, held)),
    };
    Task { history_record, ..task }
}

/// Above the held numbers and one more, and below 12; or the held numbers,
/// where there is no such size.
fn between(random: &mut Random, held: u8) -> u8 {
    let (low, high) = (held + 2, MAX_HISTORY - 2);
    if low > high {
        return held;
    }
    random.between(low as usize, high as usize) as u8
}

/// The task with this size stated, if the reader takes it.
pub fn stating(task: Task, size: u8) -> Result<Task, String> {
    let held = task.held_at_start();
    if !(held..=MAX_HISTORY).contains(&size) {
        return Err(format!("the history's size is {held} to {MAX_HISTORY} here, not {size}"));
    }
    Ok(Task { history_record: Some(size), ..task })
}
