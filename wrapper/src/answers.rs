//! What the calls return, in words for the boundary's numbers.
use super::boundary::Answer;
use std::error::Error;
use std::fmt;

#[derive(Clone, Copy, PartialEq, Eq, Hash, Debug)]
pub enum Verdict {
    /// A symbolic bisimulation contains the start: whatever one reader takes, the other can take too.
    Equal,
    /// There is none.
    Differ,
    /// Whatever the left reader takes, the right one can take too.
    Follows,
    /// It is not so.
    FallsShort,
}

impl Verdict {
    pub const ALL: [Verdict; 4] = [Verdict::Equal, Verdict::Differ, Verdict::Follows, Verdict::FallsShort];

    /// The kind of its certificate's records.
    pub fn number(self) -> u8 {
        match self {
            Verdict::Equal => 16,
            Verdict::Differ => 17,
            Verdict::Follows => 18,
            Verdict::FallsShort => 19,
        }
    }

    pub fn from_number(number: u8) -> Option<Verdict> {
        Verdict::ALL.into_iter().find(|verdict| verdict.number() == number)
    }

    /// EQUAL and FOLLOWS, whose certificates list positions that are never lost; of the others they list lost ones.
    pub fn keeps(self) -> bool {
        matches!(self, Verdict::Equal | Verdict::Follows)
    }
}

impl fmt::Display for Verdict {
    fn fmt(&self, f: &mut fmt::Formatter) -> fmt::Result {
        f.pad(match self {
            Verdict::Equal => "EQUAL",
            Verdict::Differ => "DIFFER",
            Verdict::Follows => "FOLLOWS",
            Verdict::FallsShort => "FALLS SHORT",
        })
    }
}

/// Why there is no verdict. The numbers are those of the scope papers. Those of a task's record are checked first.
#[derive(Clone, Copy, PartialEq, Eq, PartialOrd, Ord, Hash, Debug)]
pub enum Refusal {
    UnknownRecord = 1,
    TaskCut = 2,
    RecordMisplaced = 3,
    BadHeader = 4,
    BadState = 5,
    BadEdge = 6,
    RegisterRuleBroken = 7,
    EdgeNotRising = 8,
    TooManyEdges = 9,
    BadPair = 10,
    TableTooSmall = 11,
    BufferTooSmall = 12,
    CertificateIllFormed = 13,
    CertificateNotAccepted = 14,
    BadHistory = 15,
}

impl Refusal {
    pub const ALL: [Refusal; 15] = [
        Refusal::UnknownRecord,
        Refusal::TaskCut,
        Refusal::RecordMisplaced,
        Refusal::BadHeader,
        Refusal::BadState,
        Refusal::BadEdge,
        Refusal::RegisterRuleBroken,
        Refusal::EdgeNotRising,
        Refusal::TooManyEdges,
        Refusal::BadPair,
        Refusal::TableTooSmall,
        Refusal::BufferTooSmall,
        Refusal::CertificateIllFormed,
        Refusal::CertificateNotAccepted,
        Refusal::BadHistory,
    ];

    pub fn number(self) -> u32 {
        self as u32
    }

    /// 1 to 10 and 15, which are about a record of the task: then every buffer is as it was.
    pub fn is_of_a_record(self) -> bool {
        self <= Refusal::BadPair || self == Refusal::BadHistory
    }

    fn reason(self) -> &'static str {
        match self {
            Refusal::UnknownRecord => "a record's kind is not 1, 2, 3, 4, 5 or 15",
            Refusal::TaskCut => "the task ends inside a record's body or without an end record",
            Refusal::RecordMisplaced => "a record is not allowed at its place",
            Refusal::BadHeader => "a header has too many registers, no or too many states, or no such start state",
            Refusal::BadState => "a state has not the next number, or has a register or end mark that does not exist",
            Refusal::BadEdge => "an edge has a state, tag, kind or register that does not exist",
            Refusal::RegisterRuleBroken => "an edge breaks its kind's register rule",
            Refusal::EdgeNotRising => "an edge is not above the one before it",
            Refusal::TooManyEdges => "an edge is its model's 65th",
            Refusal::BadPair => {
                "a pair has a register outside a start state's set, does not rise, or reuses a register"
            }
            Refusal::TableTooSmall => "the positions reached outnumber the table's entries",
            Refusal::BufferTooSmall => "the certificate is longer than its buffer",
            Refusal::CertificateIllFormed => "the proposed certificate is not well formed",
            Refusal::CertificateNotAccepted => "the proposed certificate is well formed and not accepted",
            Refusal::BadHistory => {
                "the history's size is above 13 or less than the numbers that the start states hold together"
            }
        }
    }
}

impl fmt::Display for Refusal {
    fn fmt(&self, f: &mut fmt::Formatter) -> fmt::Result {
        write!(f, "refusal {}: {}", self.number(), self.reason())
    }
}

impl Error for Refusal {}

/// A verdict of the comparer.
#[derive(Clone, Copy, PartialEq, Eq, Debug)]
pub struct Comparison {
    pub verdict: Verdict,
    /// Positions reached: so many entries of the table are filled.
    pub positions: usize,
    /// The least count of rounds that is enough to show DIFFER or FALLS SHORT; 0 for EQUAL and FOLLOWS.
    pub rounds: u32,
    /// Bytes of the certificate, from the start of its buffer.
    pub length: usize,
}

/// What an accepted certificate shows.
#[derive(Clone, Copy, PartialEq, Eq, Debug)]
pub struct Acceptance {
    pub verdict: Verdict,
    /// The rounds that the certificate lists for the start; 0 for EQUAL and FOLLOWS.
    pub rounds: u32,
}

/// The verdict, or the refusal. Other numbers than those here are never returned by the library.
fn verdict(answer: Answer) -> Result<Verdict, Refusal> {
    let named = u8::try_from(answer.verdict).ok().and_then(Verdict::from_number);
    match (answer.refusal, named) {
        (0, Some(verdict)) => Ok(verdict),
        (number @ 1..=15, _) => Err(Refusal::ALL[number as usize - 1]),
        _ => panic!("the library returned {answer:?}"),
    }
}

pub fn comparison(answer: Answer) -> Result<Comparison, Refusal> {
    let Answer { positions, rounds, length, .. } = answer;
    Ok(Comparison { verdict: verdict(answer)?, positions: positions as usize, rounds, length })
}

pub fn acceptance(answer: Answer) -> Result<Acceptance, Refusal> {
    Ok(Acceptance { verdict: verdict(answer)?, rounds: answer.rounds })
}
