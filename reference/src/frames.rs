//! The binary frames between the runner and an adapter process. README.md
//! describes them byte by byte.

use crate::check::{check_by, CheckAnswer};
use crate::compare::{compare_by, Answer};
use crate::game::{first_reply, is_reply, named_attack, Position, Reply, POSITION_LENGTH};
use crate::model::{Model, Refusal, Side, Task};
use crate::rules::Rules;
use crate::task;
use std::io::{self, Read, Write};

pub const READ: u8 = 1;
pub const COMPARE: u8 = 2;
pub const CHECK: u8 = 3;
pub const COMPARE_ONE_WAY: u8 = 4;
pub const CHECK_ONE_WAY: u8 = 5;
pub const REPLY: u8 = 6;
pub const FIRST_REPLY: u8 = 7;

/// What a request and its answer are about.
#[derive(Clone, Copy, PartialEq, Eq, Debug)]
enum Subject {
    Read,
    Compare(Rules),
    Check(Rules),
    Reply,
    FirstReply,
}

/// The byte that a payload begins with, and what it stands for.
const SUBJECTS: [(u8, Subject); 7] = [
    (READ, Subject::Read),
    (COMPARE, Subject::Compare(Rules::TWO_WAY)),
    (CHECK, Subject::Check(Rules::TWO_WAY)),
    (COMPARE_ONE_WAY, Subject::Compare(Rules::ONE_WAY)),
    (CHECK_ONE_WAY, Subject::Check(Rules::ONE_WAY)),
    (REPLY, Subject::Reply),
    (FIRST_REPLY, Subject::FirstReply),
];

impl Subject {
    fn byte(self) -> u8 {
        let found = SUBJECTS.into_iter().find(|(_, subject)| *subject == self);
        found.expect("every subject has a byte").0
    }

    fn from_byte(byte: u8) -> Option<Subject> {
        SUBJECTS.into_iter().find(|(b, _)| *b == byte).map(|(_, subject)| subject)
    }
}

/// A question about the replies to this attack in this position: whether the
/// other side's edge with this number is one, or which one is the first from
/// this number on. Any bytes will do.
#[derive(Clone, Copy, PartialEq, Eq, Debug)]
pub struct ReplyQuestion {
    pub position: Position,
    /// Side, edge and case.
    pub attack: [u8; 3],
    /// The number of an edge of the other side.
    pub edge: u8,
}

impl ReplyQuestion {
    pub const LENGTH: usize = POSITION_LENGTH + 4;

    pub fn bytes(&self) -> [u8; ReplyQuestion::LENGTH] {
        let mut bytes = [0; ReplyQuestion::LENGTH];
        let (position, rest) = bytes.split_at_mut(POSITION_LENGTH);
        position.copy_from_slice(&self.position.bytes());
        rest[..3].copy_from_slice(&self.attack);
        rest[3] = self.edge;
        bytes
    }

    /// None for any other length.
    pub fn from_bytes(bytes: &[u8]) -> Option<ReplyQuestion> {
        if bytes.len() != ReplyQuestion::LENGTH {
            return None;
        }
        let (position, rest) = bytes.split_at(POSITION_LENGTH);
        Some(ReplyQuestion {
            position: Position::from_bytes(position),
            attack: [rest[0], rest[1], rest[2]],
            edge: rest[3],
        })
    }

    /// No for an attack that cannot be named.
    pub fn answer(&self, task: &Task) -> bool {
        let attack = named_attack(task, self.attack);
        attack.is_some_and(|attack| is_reply(task, &self.position, attack, self.edge))
    }

    /// The reply with the least number from this one on. An attack that
    /// cannot be named has none.
    pub fn first(&self, task: &Task) -> FoundReply {
        let found = named_attack(task, self.attack).and_then(|attack| {
            let reply = first_reply(task, &self.position, attack, self.edge)?;
            Some(FoundReply::of(task, attack.side.other(), &reply))
        });
        found.unwrap_or_default()
    }
}

#[derive(Clone, PartialEq, Eq, Debug)]
pub enum Request {
    Read { task: Vec<u8> },
    Compare { rules: Rules, task: Vec<u8>, table: Vec<u8>, buffer: Vec<u8> },
    Check { rules: Rules, task: Vec<u8>, certificate: Vec<u8> },
    Reply { task: Vec<u8>, question: ReplyQuestion },
    FirstReply { task: Vec<u8>, question: ReplyQuestion },
}

#[derive(Clone, PartialEq, Eq, Debug)]
pub enum Response {
    /// The dump is empty after a refusal.
    Read {
        refusal: u32,
        dump: Vec<u8>,
    },
    Compare {
        rules: Rules,
        answer: Answer,
        table: Vec<u8>,
        buffer: Vec<u8>,
    },
    Check {
        rules: Rules,
        answer: CheckAnswer,
    },
    /// The answer is 1 for yes, 0 for no and after a refusal.
    Reply {
        refusal: u32,
        answer: u32,
    },
    FirstReply {
        refusal: u32,
        found: FoundReply,
    },
}

/// A first reply as numbers and bytes. Where none is found, and after a
/// refusal, everything is zero or empty.
#[derive(Clone, PartialEq, Eq, Debug, Default)]
pub struct FoundReply {
    /// 1 if there is one.
    pub found: u32,
    /// The number of its edge.
    pub edge: u32,
    /// The to state of its edge.
    pub to: u32,
    /// The position that the round leads to.
    pub leads_to: Vec<u8>,
}

impl FoundReply {
    /// A reply by an edge of this side.
    fn of(task: &Task, side: Side, reply: &Reply) -> FoundReply {
        let to = task.model(side).edges[reply.edge as usize].to;
        let leads_to = reply.leads_to.bytes().to_vec();
        FoundReply { found: 1, edge: reply.edge as u32, to: to as u32, leads_to }
    }
}

impl Request {
    pub fn task(&self) -> &[u8] {
        match self {
            Request::Read { task } => task,
            Request::Compare { task, .. } => task,
            Request::Check { task, .. } => task,
            Request::Reply { task, .. } => task,
            Request::FirstReply { task, .. } => task,
        }
    }

    fn subject(&self) -> Subject {
        match self {
            Request::Read { .. } => Subject::Read,
            Request::Compare { rules, .. } => Subject::Compare(*rules),
            Request::Check { rules, .. } => Subject::Check(*rules),
            Request::Reply { .. } => Subject::Reply,
            Request::FirstReply { .. } => Subject::FirstReply,
        }
    }

    pub fn payload(&self) -> Vec<u8> {
        let strings: &[&[u8]] = match self {
            Request::Read { task } => &[task],
            Request::Compare { task, table, buffer, .. } => &[task, table, buffer],
            Request::Check { task, certificate, .. } => &[task, certificate],
            Request::Reply { task, question } | Request::FirstReply { task, question } => {
                &[task, &question.bytes()]
            }
        };
        payload(self.subject().byte(), &[], strings)
    }

    pub fn from_payload(bytes: &[u8]) -> Option<Request> {
        let mut fields = Fields { rest: bytes };
        let subject = Subject::from_byte(fields.byte()?)?;
        let task = fields.string()?;
        let request = match subject {
            Subject::Read => Request::Read { task },
            Subject::Compare(rules) => {
                let (table, buffer) = (fields.string()?, fields.string()?);
                Request::Compare { rules, task, table, buffer }
            }
            Subject::Check(rules) => Request::Check { rules, task, certificate: fields.string()? },
            Subject::Reply => {
                let question = ReplyQuestion::from_bytes(&fields.string()?)?;
                Request::Reply { task, question }
            }
            Subject::FirstReply => {
                let question = ReplyQuestion::from_bytes(&fields.string()?)?;
                Request::FirstReply { task, question }
            }
        };
        fields.rest.is_empty().then_some(request)
    }
}

impl Response {
    fn subject(&self) -> Subject {
        match self {
            Response::Read { .. } => Subject::Read,
            Response::Compare { rules, .. } => Subject::Compare(*rules),
            Response::Check { rules, .. } => Subject::Check(*rules),
            Response::Reply { .. } => Subject::Reply,
            Response::FirstReply { .. } => Subject::FirstReply,
        }
    }

    /// The byte that the payload begins with.
    pub fn first_byte(&self) -> u8 {
        self.subject().byte()
    }

    pub fn payload(&self) -> Vec<u8> {
        match self {
            Response::Read { refusal, dump } => payload(self.first_byte(), &[*refusal], &[dump]),
            Response::Compare { answer: a, table, buffer, .. } => {
                let numbers = [a.refusal, a.verdict, a.positions, a.rounds, a.certificate_length];
                payload(self.first_byte(), &numbers, &[table, buffer])
            }
            Response::Check { answer: a, .. } => {
                payload(self.first_byte(), &[a.refusal, a.verdict, a.rounds], &[])
            }
            Response::Reply { refusal, answer } => {
                payload(self.first_byte(), &[*refusal, *answer], &[])
            }
            Response::FirstReply { refusal, found: f } => {
                payload(self.first_byte(), &[*refusal, f.found, f.edge, f.to], &[&f.leads_to])
            }
        }
    }

    pub fn from_payload(bytes: &[u8]) -> Option<Response> {
        let mut fields = Fields { rest: bytes };
        let response = match Subject::from_byte(fields.byte()?)? {
            Subject::Read => Response::Read { refusal: fields.number()?, dump: fields.string()? },
            Subject::Compare(rules) => {
                let answer = Answer {
                    refusal: fields.number()?,
                    verdict: fields.number()?,
                    positions: fields.number()?,
                    rounds: fields.number()?,
                    certificate_length: fields.number()?,
                };
                let (table, buffer) = (fields.string()?, fields.string()?);
                Response::Compare { rules, answer, table, buffer }
            }
            Subject::Check(rules) => {
                let (refusal, verdict) = (fields.number()?, fields.number()?);
                let answer = CheckAnswer { refusal, verdict, rounds: fields.number()? };
                Response::Check { rules, answer }
            }
            Subject::Reply => {
                Response::Reply { refusal: fields.number()?, answer: fields.number()? }
            }
            Subject::FirstReply => {
                let refusal = fields.number()?;
                let [found, edge, to] = [fields.number()?, fields.number()?, fields.number()?];
                let found = FoundReply { found, edge, to, leads_to: fields.string()? };
                Response::FirstReply { refusal, found }
            }
        };
        fields.rest.is_empty().then_some(response)
    }
}

fn payload(first_byte: u8, numbers: &[u32], strings: &[&[u8]]) -> Vec<u8> {
    let mut bytes = vec![first_byte];
    for number in numbers {
        bytes.extend_from_slice(&number.to_le_bytes());
    }
    for string in strings {
        bytes.extend_from_slice(&(string.len() as u32).to_le_bytes());
        bytes.extend_from_slice(string);
    }
    bytes
}

struct Fields<'a> {
    rest: &'a [u8],
}

impl Fields<'_> {
    fn take(&mut self, length: usize) -> Option<&[u8]> {
        if self.rest.len() < length {
            return None;
        }
        let (taken, rest) = self.rest.split_at(length);
        self.rest = rest;
        Some(taken)
    }

    fn byte(&mut self) -> Option<u8> {
        Some(self.take(1)?[0])
    }

    fn number(&mut self) -> Option<u32> {
        let four: [u8; 4] = self.take(4)?.try_into().ok()?;
        Some(u32::from_le_bytes(four))
    }

    fn string(&mut self) -> Option<Vec<u8>> {
        let length = self.number()? as usize;
        Some(self.take(length)?.to_vec())
    }
}

/// Writes one frame: length, then payload.
pub fn write_frame(output: &mut impl Write, payload: &[u8]) -> io::Result<()> {
    output.write_all(&(payload.len() as u32).to_le_bytes())?;
    output.write_all(payload)?;
    output.flush()
}

/// Reads one frame; None at a clean end of input.
pub fn read_frame(input: &mut impl Read) -> io::Result<Option<Vec<u8>>> {
    let mut length = [0; 4];
    let got = input.read(&mut length[..1])?;
    if got == 0 {
        return Ok(None);
    }
    input.read_exact(&mut length[1..])?;
    let mut payload = Vec::new();
    let length = u32::from_le_bytes(length) as u64;
    input.take(length).read_to_end(&mut payload)?;
    if payload.len() as u64 != length {
        return Err(io::ErrorKind::UnexpectedEof.into());
    }
    Ok(Some(payload))
}

/// A parsed task, field by field.
pub fn dump(task: &Task) -> Vec<u8> {
    let mut bytes = Vec::new();
    dump_model(&mut bytes, &task.left);
    dump_model(&mut bytes, &task.right);
    bytes.push(task.pairs.len() as u8);
    bytes.extend_from_slice(&Position::start(task).bytes());
    bytes
}

fn dump_model(bytes: &mut Vec<u8>, model: &Model) {
    let (states, edges) = (model.states.len() as u8, model.edges.len() as u8);
    bytes.extend_from_slice(&[model.registers, states, model.start, edges]);
    for state in &model.states {
        bytes.extend_from_slice(&[state.set.0, state.end_mark]);
    }
    for edge in &model.edges {
        bytes.extend_from_slice(&edge.bytes());
    }
}

/// The reference's own answer.
pub fn reference_response(request: &Request) -> Response {
    match request {
        Request::Read { task } => match task::read(task) {
            Ok(task) => Response::Read { refusal: 0, dump: dump(&task) },
            Err(refusal) => Response::Read { refusal: refusal.0, dump: Vec::new() },
        },
        Request::Compare { rules, task, table, buffer } => {
            let (mut table, mut buffer) = (table.clone(), buffer.clone());
            let answer = compare_by(*rules, task, &mut table, &mut buffer);
            Response::Compare { rules: *rules, answer, table, buffer }
        }
        Request::Check { rules, task, certificate } => {
            Response::Check { rules: *rules, answer: check_by(*rules, task, certificate) }
        }
        Request::Reply { task, question } => match task::read(task) {
            Ok(task) => Response::Reply { refusal: 0, answer: question.answer(&task) as u32 },
            Err(Refusal(refusal)) => Response::Reply { refusal, answer: 0 },
        },
        Request::FirstReply { task, question } => match task::read(task) {
            Ok(task) => Response::FirstReply { refusal: 0, found: question.first(&task) },
            Err(Refusal(refusal)) => Response::FirstReply { refusal, found: FoundReply::default() },
        },
    }
}
