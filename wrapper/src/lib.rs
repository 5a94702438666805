//! Compares two reader models, and checks certificates: a safe wrapper of the proved static library.
//!
//! A comparison answers EQUAL or DIFFER with a certificate, or one of the refusals; the one-way comparison, in which only the
//! left side attacks, answers FOLLOWS or FALLS SHORT. docs/FORMATS.md says what a task, a position and a certificate are, and
//! what a stated history size means. The library works in the buffers that it is lent and keeps no memory of its own.
//!
//! ```no_run
//! let task = std::fs::read("readers.task").unwrap();
//! match nuldopa::compare_owned(&task) {
//!     Ok(report) => {
//!         println!("{} in {} rounds", report.verdict, report.rounds);
//!         report.records().for_each(|record| println!("{record}"));
//!     }
//!     Err(refusal) => println!("{refusal}"),
//! }
//! let covered = nuldopa::Game::OneWay.compare_owned(&task).unwrap().verdict == nuldopa::Verdict::Follows;
//! println!("everything that left takes, right takes too: {covered}");
//! ```

mod answers;
pub mod boundary;
mod records;
mod report;
#[cfg(test)]
mod tests;

pub use answers::{Acceptance, Comparison, Refusal, Verdict};
pub use records::{records, Attack, Case, Position, Record, Records, Side};
pub use report::{entries, Entries, Report};

/// Bytes of a position.
pub const POSITION_LENGTH: usize = 9;

/// Bytes of a table entry: a position, then its rounds.
pub const ENTRY_LENGTH: usize = 13;

/// Bytes of a certificate record: of kinds 16 and 18, and of kinds 17 and 19.
pub const KEPT_LENGTH: usize = 10;
pub const LOST_LENGTH: usize = 17;

/// The most bytes that a certificate has beside a table of so many bytes: [`LOST_LENGTH`] for each entry, of which spare bytes
/// at the table's end make none. A comparison of either game that is lent so many never meets [`Refusal::BufferTooSmall`]:
/// that is proved (crates/promises/specs/Promises.antt, `buffer_is_enough`).
pub const fn most_certificate_bytes(table_length: usize) -> usize {
    // No slice is so long that this would be more than a usize holds.
    (table_length / ENTRY_LENGTH).saturating_mul(LOST_LENGTH)
}

/// The greatest history size. It means so many numbers or more, and a task that states no size starts with it.
pub const MOST_SEEN: u8 = 13;

/// No task reaches more positions of one history size. One that starts with [`MOST_SEEN`] reaches no other, so that a table of
/// so many entries is never too small for it.
pub const MOST_POSITIONS_OF_A_SIZE: usize = 3_411_712;

/// No task reaches more positions, so a table of so many entries is never too small: that is proved
/// (crates/promises/specs/Promises.antt, `table_is_enough`).
pub const MOST_POSITIONS: usize = (MOST_SEEN as usize + 1) * MOST_POSITIONS_OF_A_SIZE;

/// Which side attacks, and which end marks lose at once. The functions below are those of [`Game::Equality`].
#[derive(Clone, Copy, PartialEq, Eq, Hash, Debug)]
pub enum Game {
    /// Either side attacks, and end marks must be alike: EQUAL or DIFFER, with certificates of kinds 16 and 17.
    Equality,
    /// Only the left side attacks, and where its end mark is 1 the right one must be: FOLLOWS or FALLS SHORT, with
    /// certificates of kinds 18 and 19. EQUAL gives FOLLOWS, also with the sides exchanged.
    OneWay,
}

impl Game {
    pub const ALL: [Game; 2] = [Game::Equality, Game::OneWay];

    /// Compares the two models of a task.
    ///
    /// After a verdict the table holds the positions reached, rising, each with its rounds ([`entries`]), then zeros; and
    /// the certificate stands at the start of its buffer, the rest of which is unchanged ([`records`]). Refusals 1 to 10 and
    /// 15 change neither; 11 and 12 fill the table with zeros and leave the certificate buffer. Refusals 13 and 14 are not
    /// given.
    ///
    /// A table of [`MOST_POSITIONS_OF_A_SIZE`] entries of [`ENTRY_LENGTH`] bytes is enough for a task that states no history
    /// size, one of [`MOST_POSITIONS`] entries for every task, and beside any table a certificate buffer of
    /// [`most_certificate_bytes`]. Of these the certificate takes at most [`LOST_LENGTH`] for each position reached, and with
    /// EQUAL or FOLLOWS at most [`KEPT_LENGTH`].
    pub fn compare(self, task: &[u8], table: &mut [u8], certificate: &mut [u8]) -> Result<Comparison, Refusal> {
        answers::comparison(boundary::compare(self, task, table, certificate))
    }

    /// Compares the two models of a task in a table that grows until it is large enough. Only refusals 1 to 10 and 15 are
    /// given: a table that is large enough and [`most_certificate_bytes`] beside it leave no other. Both take at most 126 MB
    /// for a task that states no history size, and 1.5 GB for others.
    pub fn compare_owned(self, task: &[u8]) -> Result<Report, Refusal> {
        report::compare_growing(self, task)
    }

    /// Checks a proposed certificate, whoever wrote it; the other game's kinds meet refusal 13. Refusals 11 and 12 are not
    /// given.
    pub fn check(self, task: &[u8], certificate: &[u8]) -> Result<Acceptance, Refusal> {
        answers::acceptance(boundary::check(self, task, certificate))
    }
}

/// [`Game::compare`] of equality.
pub fn compare(task: &[u8], table: &mut [u8], certificate: &mut [u8]) -> Result<Comparison, Refusal> {
    Game::Equality.compare(task, table, certificate)
}

/// [`Game::compare_owned`] of equality.
pub fn compare_owned(task: &[u8]) -> Result<Report, Refusal> {
    Game::Equality.compare_owned(task)
}

/// [`Game::check`] of equality.
pub fn check(task: &[u8], certificate: &[u8]) -> Result<Acceptance, Refusal> {
    Game::Equality.check(task, certificate)
}
