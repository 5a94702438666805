//! The sizes that tables and certificate buffers are lent with, and what an
//! answer has to keep to whatever is lent.

use crate::certificate::{greatest_length, LOST_LENGTH};
use crate::compare::{whole_entries, Answer, Solution, ENTRY_LENGTH, NEVER_LOST};
use crate::game::POSITION_LENGTH;
use crate::model::{Task, Verdict};
use crate::random::Random;
use crate::ways::limit;

/// A table's length, by the entries that the task needs, or by those from
/// which on the compared library goes another way (`ways::limit`).
#[derive(Clone, Copy, PartialEq, Eq, Debug)]
pub enum Table {
    Exact,
    OneLess,
    OneLessWithSpare,
    Zero,
    Larger,
    Spare,
    AtLimit,
    BelowLimit,
    AboveLimit,
}

/// A buffer's length, by the bytes that the task needs or by the entries of
/// the table lent beside it.
#[derive(Clone, Copy, PartialEq, Eq, Debug)]
pub enum Buffer {
    Exact,
    OneLess,
    Zero,
    Larger,
    Spare,
    PerEntry,
    PerEntryLessOne,
}

/// Tables and buffers are drawn from these lists.
const TABLES: [Table; 13] = [
    Table::Exact,
    Table::Exact,
    Table::Exact,
    Table::OneLess,
    Table::OneLessWithSpare,
    Table::Zero,
    Table::Larger,
    Table::Spare,
    Table::Spare,
    Table::Spare,
    Table::AtLimit,
    Table::BelowLimit,
    Table::AboveLimit,
];

/// The tables that go by the limit.
const AT_LIMIT: [Table; 3] = [Table::AtLimit, Table::BelowLimit, Table::AboveLimit];

const BUFFERS: [Buffer; 10] = [
    Buffer::Exact,
    Buffer::Exact,
    Buffer::Exact,
    Buffer::OneLess,
    Buffer::PerEntry,
    Buffer::Zero,
    Buffer::Larger,
    Buffer::PerEntryLessOne,
    Buffer::Spare,
    Buffer::Spare,
];

/// What the first cases of a given task are lent, in this order. So many cases
/// have every choice in them, whatever the seed: six verdicts or more, four
/// tables and four buffers or more that are too small; and the buffer that is
/// always enough, and one byte less, beside a table with no entry too many.
/// The last three go by the limit between the library's ways.
pub const PLAN: [(Table, Buffer); 18] = [
    (Table::Spare, Buffer::Exact),
    (Table::Zero, Buffer::Exact),
    (Table::Larger, Buffer::Zero),
    (Table::Exact, Buffer::PerEntry),
    (Table::Spare, Buffer::OneLess),
    (Table::OneLess, Buffer::Larger),
    (Table::Exact, Buffer::Zero),
    (Table::Spare, Buffer::Spare),
    (Table::OneLess, Buffer::PerEntry),
    (Table::Spare, Buffer::PerEntry),
    (Table::Exact, Buffer::OneLess),
    (Table::Exact, Buffer::Exact),
    (Table::Exact, Buffer::PerEntryLessOne),
    (Table::OneLessWithSpare, Buffer::PerEntry),
    (Table::Larger, Buffer::Exact),
    (Table::AtLimit, Buffer::Exact),
    (Table::BelowLimit, Buffer::Spare),
    (Table::AboveLimit, Buffer::PerEntry),
];

/// The longest table that is lent for the limit's sake.
const LONGEST: usize = 4 << 20;

/// What a task needs: entries, bytes of certificate; and the limit between
/// the library's ways in entries.
#[derive(Clone, Copy, Debug)]
pub struct Needed {
    pub entries: usize,
    pub certificate: usize,
    pub limit: usize,
}

impl Needed {
    pub fn of(task: &Task, solution: &Solution) -> Needed {
        Needed {
            entries: solution.entries.len(),
            certificate: solution.certificate.len(),
            limit: limit(task),
        }
    }

    /// Whether tables are lent at the limit and beside it.
    pub fn has_limit(&self) -> bool {
        (self.limit + 1) * ENTRY_LENGTH <= LONGEST
    }
}

/// Bytes that make no entry.
fn spare(random: &mut Random) -> usize {
    random.between(1, ENTRY_LENGTH - 1)
}

/// Bytes that make an entry or more.
fn beyond(random: &mut Random) -> usize {
    random.between(ENTRY_LENGTH, 100)
}

impl Table {
    pub fn name(self) -> &'static str {
        match self {
            Table::Exact => "exact",
            Table::OneLess => "one-less",
            Table::OneLessWithSpare => "one-less-with-spare",
            Table::Zero => "zero",
            Table::Larger => "larger",
            Table::Spare => "spare",
            Table::AtLimit => "at-limit",
            Table::BelowLimit => "below-limit",
            Table::AboveLimit => "above-limit",
        }
    }

    /// What is lent in its place where the limit asks for too long a table.
    fn without_limit(self) -> Table {
        match self {
            Table::AtLimit => Table::Exact,
            Table::BelowLimit => Table::OneLess,
            Table::AboveLimit => Table::Larger,
            other => other,
        }
    }

    fn length(self, random: &mut Random, needed: Needed) -> usize {
        let exact = needed.entries * ENTRY_LENGTH;
        let limit = needed.limit * ENTRY_LENGTH;
        let less = exact.saturating_sub(ENTRY_LENGTH);
        match self {
            Table::Exact => exact,
            Table::OneLess => less,
            Table::OneLessWithSpare => less + spare(random),
            Table::Zero => 0,
            Table::Larger => exact + beyond(random),
            Table::Spare => exact + spare(random),
            Table::AtLimit => limit,
            Table::BelowLimit => limit.saturating_sub(ENTRY_LENGTH),
            Table::AboveLimit => limit + ENTRY_LENGTH,
        }
    }
}

impl Buffer {
    pub fn name(self) -> &'static str {
        match self {
            Buffer::Exact => "exact",
            Buffer::OneLess => "one-less",
            Buffer::Zero => "zero",
            Buffer::Larger => "larger",
            Buffer::Spare => "spare",
            Buffer::PerEntry => "17-an-entry",
            Buffer::PerEntryLessOne => "17-an-entry-less-one",
        }
    }

    /// `table` is the length of the table lent beside it.
    fn length(self, random: &mut Random, needed: usize, table: usize) -> usize {
        match self {
            Buffer::Exact => needed,
            Buffer::OneLess => needed.saturating_sub(1),
            Buffer::Zero => 0,
            Buffer::Larger => needed + beyond(random),
            Buffer::Spare => needed + spare(random),
            Buffer::PerEntry => always_enough(table),
            Buffer::PerEntryLessOne => always_enough(table).saturating_sub(1),
        }
    }
}

/// The buffer that no certificate outgrows beside a table of this length.
pub fn always_enough(table: usize) -> usize {
    whole_entries(table) * LOST_LENGTH
}

/// The chosen lengths, with the names of the choices.
pub struct Lent {
    pub table: usize,
    pub table_word: &'static str,
    pub buffer: usize,
    pub buffer_word: &'static str,
}

/// How lengths are chosen: drawn from all, or with a table that goes by the
/// limit; or by the number of the case, as long as the plan goes.
#[derive(Clone, Copy, PartialEq, Eq, Debug)]
pub enum Choice {
    Drawn,
    DrawnAtLimit,
    Turn(u64),
}

/// Lengths for a task that needs so much.
pub fn lend(random: &mut Random, choice: Choice, needed: Needed) -> Lent {
    let (planned, tables) = match choice {
        Choice::Turn(turn) => (PLAN.get(turn as usize), &TABLES[..]),
        Choice::Drawn => (None, &TABLES[..]),
        Choice::DrawnAtLimit => (None, &AT_LIMIT[..]),
    };
    let choice = planned.map_or_else(|| *random.pick(tables), |(table, _)| *table);
    let choice = if needed.has_limit() { choice } else { choice.without_limit() };
    let (table, table_word) = (choice.length(random, needed), choice.name());
    let choice = planned.map_or_else(|| *random.pick(&BUFFERS), |(_, buffer)| *buffer);
    let (buffer, buffer_word) = (choice.length(random, needed.certificate, table), choice.name());
    Lent { table, table_word, buffer, buffer_word }
}

/// What an answer has in it that no task and no lent size can bring about,
/// told from the answer, the table and the buffer alone.
pub fn breach(answer: &Answer, table: &[u8], buffer: &[u8]) -> Option<&'static str> {
    let Some(verdict) = Verdict::from_number(answer.verdict) else {
        let enough = buffer.len() >= always_enough(table.len());
        return (answer.refusal == 12 && enough).then_some("12 with 17 bytes or more an entry");
    };
    let positions = answer.positions as usize;
    let length = answer.certificate_length as usize;
    if length > greatest_length(verdict, positions) {
        return Some("a certificate too long for the positions reached");
    }
    let is_lost = |entry: &&[u8]| entry[POSITION_LENGTH..] != NEVER_LOST.to_be_bytes();
    let lost = table.chunks_exact(ENTRY_LENGTH).take(positions).filter(is_lost).count();
    let outnumbered = !verdict.is_kept() && length / LOST_LENGTH > lost;
    outnumbered.then_some("more records than reached positions that are lost")
}
