//! A comparison in memory of its own.
use super::{most_certificate_bytes, records, Game, Position, Records, Refusal, Verdict};
use super::{ENTRY_LENGTH, MOST_POSITIONS, POSITION_LENGTH};

/// A verdict with its table and its certificate.
#[derive(Clone, PartialEq, Eq, Debug)]
pub struct Report {
    pub verdict: Verdict,
    /// 0 for EQUAL and FOLLOWS.
    pub rounds: u32,
    /// The entries of the positions reached.
    pub table: Vec<u8>,
    pub certificate: Vec<u8>,
}

impl Report {
    pub fn positions(&self) -> usize {
        self.table.len() / ENTRY_LENGTH
    }

    pub fn entries(&self) -> Entries<'_> {
        entries(&self.table)
    }

    pub fn records(&self) -> Records<'_> {
        records(&self.certificate)
    }
}

const FIRST_ENTRIES: usize = 1024;

/// In a table that grows until it is large enough, as one of [`MOST_POSITIONS`] entries is, so that this ends. The certificate
/// buffer needs no trying: its length follows from the table's.
pub fn compare_growing(game: Game, task: &[u8]) -> Result<Report, Refusal> {
    let mut entries = FIRST_ENTRIES;
    loop {
        match compare_in(game, task, entries) {
            // Eight times as many: what a table that was too small took is then small beside the next one.
            Err(Refusal::TableTooSmall) => entries = (entries * 8).min(MOST_POSITIONS),
            outcome => return outcome,
        }
    }
}

fn compare_in(game: Game, task: &[u8], entries: usize) -> Result<Report, Refusal> {
    let mut table = vec![0; entries * ENTRY_LENGTH];
    let mut certificate = vec![0; most_certificate_bytes(table.len())];
    let found = game.compare(task, &mut table, &mut certificate)?;
    table.truncate(found.positions * ENTRY_LENGTH);
    certificate.truncate(found.length);
    table.shrink_to_fit();
    certificate.shrink_to_fit();
    Ok(Report { verdict: found.verdict, rounds: found.rounds, table, certificate })
}

/// The positions of filled table entries, each with its rounds, or without where it is never lost.
#[derive(Clone, Debug)]
pub struct Entries<'a> {
    rest: std::slice::ChunksExact<'a, u8>,
}

/// The first entries of a table; lend it as many bytes as there are positions reached, [`ENTRY_LENGTH`] each.
pub fn entries(table: &[u8]) -> Entries<'_> {
    Entries { rest: table.chunks_exact(ENTRY_LENGTH) }
}

impl Iterator for Entries<'_> {
    type Item = (Position, Option<u32>);

    fn next(&mut self) -> Option<Self::Item> {
        let (position, rounds) = self.rest.next()?.split_at(POSITION_LENGTH);
        let position = Position::from_bytes(position.try_into().ok()?);
        let rounds = u32::from_be_bytes(rounds.try_into().ok()?);
        Some((position, Some(rounds).filter(|&n| n != u32::MAX)))
    }
}
