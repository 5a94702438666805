//! The differential runner: makes cases from a seed, asks the partner and
//! the reference, compares, counts.

use crate::baseline;
use crate::check::check_by;
use crate::compare::{solve, Solution};
use crate::frames::{reference_response, Request, Response};
use crate::generate::proposals::{proposal, random_kind, ProposalKind};
use crate::generate::sweeps::Sweep;
use crate::generate::{item, item_of_kind, Item, ItemKind};
use crate::lent::{breach, lend, Choice, Needed};
use crate::model::{Task, Verdict};
use crate::partner::{run_program, Adapter, Watch};
use crate::random::Random;
use crate::rules::Rules;
use crate::tally::Tally;
use crate::task;
use crate::text::{compare_output_by, INPUT_LIMIT};
use std::path::PathBuf;
use std::time::Duration;

#[derive(Clone, Copy, PartialEq, Eq, Debug)]
pub enum Operation {
    Read,
    Compare(Rules),
    Check(Rules),
    Program(Rules),
}

impl Operation {
    pub const ALL: [Operation; 7] = [
        Operation::Read,
        Operation::Compare(Rules::TWO_WAY),
        Operation::Check(Rules::TWO_WAY),
        Operation::Program(Rules::TWO_WAY),
        Operation::Compare(Rules::ONE_WAY),
        Operation::Check(Rules::ONE_WAY),
        Operation::Program(Rules::ONE_WAY),
    ];

    pub fn name(self) -> String {
        match self {
            Operation::Read => "read".to_string(),
            Operation::Compare(rules) => rules.word_for("compare"),
            Operation::Check(rules) => rules.word_for("check"),
            Operation::Program(rules) => rules.word_for("program"),
        }
    }

    /// What `--fault` can alter in an answer of this operation.
    pub fn fault_fields(self) -> &'static [&'static str] {
        match self {
            Operation::Read => &["refusal", "dump"],
            Operation::Compare(_) => {
                &["refusal", "verdict", "positions", "rounds", "length", "table", "buffer"]
            }
            Operation::Check(_) => &["refusal", "verdict", "rounds"],
            Operation::Program(_) => &["text"],
        }
    }
}

#[derive(Clone, Debug)]
pub struct Options {
    pub operation: Operation,
    pub seed: u64,
    pub count: u64,
    /// The first item's number; others follow.
    pub first: u64,
    /// Items of this kind only.
    pub kind: Option<ItemKind>,
    /// This task in every case, not the seed's items.
    pub task: Option<Vec<u8>>,
    /// All certificates of this sort that come of the given task's own one;
    /// their number is the run's count.
    pub sweep: Option<Sweep>,
    /// Tables that go by the limit between the library's ways only.
    pub at_limit: bool,
    /// Proposed certificates of this kind only.
    pub proposal: Option<ProposalKind>,
    pub command: Vec<String>,
    /// The field to alter in the first answer that has it, from this item
    /// on.
    pub fault: Option<(String, u64)>,
    /// Key and least count.
    pub required: Vec<(String, u64)>,
    pub save: PathBuf,
    pub timeout: Duration,
}

/// After this many mismatches a run ends.
const MISMATCH_LIMIT: usize = 5;

enum Partner {
    Adapter(Adapter),
    Program(Watch, Vec<String>),
}

/// One question, with both sides' answers in a form that can be compared.
#[derive(Clone, PartialEq, Eq)]
enum Question {
    Frame(Request),
    Text(Vec<u8>),
}

#[derive(Clone, PartialEq, Eq)]
enum Reply {
    Frame(Response),
    Text(Vec<u8>),
    Failure(String),
}

pub struct Runner {
    options: Options,
    partner: Partner,
    tally: Tally,
    fault_done: bool,
    mismatches: usize,
}

/// What a run came to.
pub struct Outcome {
    pub cases: u64,
    pub mismatches: usize,
    pub missing: Vec<String>,
    pub tally: Tally,
}

impl Outcome {
    pub fn is_good(&self) -> bool {
        self.mismatches == 0 && self.missing.is_empty()
    }
}

pub fn run(mut options: Options) -> Result<Outcome, String> {
    if let Some(sweep) = options.sweep {
        options.count = sweep.count(&own_certificate(&options)?) as u64;
    }
    let watch = Watch::start(options.timeout);
    let partner = match options.operation {
        Operation::Program(_) => Partner::Program(watch, options.command.clone()),
        _ => Partner::Adapter(Adapter::start(&watch, &options.command)?),
    };
    let mut runner =
        Runner { options, partner, tally: Tally::default(), fault_done: false, mismatches: 0 };
    let mut cases = 0;
    for index in runner.options.first..runner.options.first + runner.options.count {
        cases += 1;
        let goes_on = runner.one_case(index);
        if !goes_on || runner.mismatches == MISMATCH_LIMIT {
            break;
        }
    }
    if runner.options.fault.is_some() && !runner.fault_done {
        return Err("no answer had the field that --fault names".to_string());
    }
    let missing = runner.missing_counts();
    Ok(Outcome { cases, mismatches: runner.mismatches, missing, tally: runner.tally })
}

/// The certificate of the given task.
fn own_certificate(options: &Options) -> Result<Vec<u8>, String> {
    let (Operation::Check(rules), Some(bytes)) = (options.operation, &options.task) else {
        return Err("--sweep is for check with --task".to_string());
    };
    let task =
        task::read(bytes).map_err(|r| format!("--sweep: the task is refused with {}", r.0))?;
    Ok(baseline::solve(rules, &task).certificate)
}

impl Runner {
    /// False if the partner can give no more answers.
    fn one_case(&mut self, index: u64) -> bool {
        let Options { operation, seed, kind, .. } = self.options;
        let item = match (&self.options.task, kind) {
            (Some(task), _) => Item { kind: ItemKind::Reach, bytes: task.clone() },
            (None, Some(kind)) => item_of_kind(seed, index, kind),
            (None, None) => item(seed, index),
        };
        let mut random = Random::for_item(seed ^ 0xca5e, index);
        let (question, expected) = self.make_case(index, &mut random, item);
        let mut given = self.ask(&question);
        let wanted =
            self.options.fault.as_ref().filter(|(_, from)| !self.fault_done && index >= *from);
        if let Some((field, _)) = wanted {
            self.fault_done = alter(&mut random, &mut given, field);
        }
        if given != expected || breach_of(&given).is_some() {
            self.report(index, &question, &expected, &given);
        }
        !matches!(given, Reply::Failure(_)) || matches!(operation, Operation::Program(_))
    }

    /// A given task may be too large for the plain comparer.
    fn solve(&self, rules: Rules, task: &Task) -> Solution {
        match self.options.task {
            Some(_) => baseline::solve(rules, task),
            None => solve(rules, task),
        }
    }

    fn make_case(&mut self, index: u64, random: &mut Random, item: Item) -> (Question, Reply) {
        self.tally.add(format!("item:{}", item.kind.name()));
        self.tally.add_task_size(&item.bytes);
        match self.options.operation {
            Operation::Read => self.read_case(item.bytes),
            Operation::Compare(rules) => self.compare_case(rules, index, random, item.bytes),
            Operation::Check(rules) => self.check_case(rules, index, random, item.bytes),
            Operation::Program(rules) => self.program_case(rules, random, item.bytes),
        }
    }

    fn read_case(&mut self, task: Vec<u8>) -> (Question, Reply) {
        let request = Request::Read { task };
        let response = reference_response(&request);
        if let Response::Read { refusal, .. } = &response {
            self.tally.add(format!("refusal:{refusal}"));
        }
        (Question::Frame(request), Reply::Frame(response))
    }

    fn compare_case(
        &mut self,
        rules: Rules,
        index: u64,
        random: &mut Random,
        task: Vec<u8>,
    ) -> (Question, Reply) {
        let solved = task::read(&task).ok().map(|parsed| {
            let solution = self.solve(rules, &parsed);
            self.tally.add_outcome(&parsed, &solution);
            self.tally.add_features(&parsed, &solution);
            self.count_beside(&parsed, &solution);
            (parsed, solution)
        });
        let (table, buffer) = self.lend(index, random, &solved);
        let request =
            Request::Compare { rules, task, table: table.clone(), buffer: buffer.clone() };
        let response = match &solved {
            None => reference_response(&request),
            Some((_, solution)) => {
                let (mut table, mut buffer) = (table, buffer);
                let answer = solution.deliver(&mut table, &mut buffer);
                Response::Compare { rules, answer, table, buffer }
            }
        };
        if let Response::Compare { answer, table, .. } = &response {
            self.tally.add(format!("refusal:{}", answer.refusal));
            self.tally.add(format!("answer:{}", verdict_key(answer.verdict)));
            if let Some((task, _)) = &solved {
                self.tally.add_way(task, table.len(), answer.refusal);
            }
        }
        (Question::Frame(request), Reply::Frame(response))
    }

    /// A table and a buffer with sizes around what is needed, in turn where
    /// the task is given.
    fn lend(
        &mut self,
        index: u64,
        random: &mut Random,
        solved: &Option<(Task, Solution)>,
    ) -> (Vec<u8>, Vec<u8>) {
        let needed = needed_sizes(random, solved);
        let choice = match self.options.task {
            _ if self.options.at_limit => Choice::DrawnAtLimit,
            Some(_) => Choice::Turn(index),
            None => Choice::Drawn,
        };
        let lent = lend(random, choice, needed);
        self.tally.add(format!("table:{}", lent.table_word));
        self.tally.add(format!("buffer:{}", lent.buffer_word));
        if let Some((_, solution)) = solved {
            self.tally.add_limits(solution, lent.table, lent.buffer);
        }
        (random.bytes(lent.table), random.bytes(lent.buffer))
    }

    /// Not for a given task, which may be large.
    fn count_beside(&mut self, task: &Task, solution: &Solution) {
        if solution.rules != Rules::TWO_WAY && self.options.task.is_none() {
            self.tally.add_beside(&solve(Rules::TWO_WAY, task), solution);
        }
    }

    fn check_case(
        &mut self,
        rules: Rules,
        index: u64,
        random: &mut Random,
        task: Vec<u8>,
    ) -> (Question, Reply) {
        let certificate = match task::read(&task) {
            Err(_) => {
                let length = random.below(40);
                random.bytes(length)
            }
            Ok(parsed) => {
                let solution = self.solve(rules, &parsed);
                self.proposed(index, random, &parsed, &solution)
            }
        };
        let answer = check_by(rules, &task, &certificate);
        self.tally.add(format!("refusal:{}", answer.refusal));
        if answer.refusal == 0 {
            self.tally.add(format!("verdict:{}", verdict_key(answer.verdict)));
        }
        if answer.verdict == rules.lost.number() {
            self.tally.add_rounds(answer.rounds);
        }
        let request = Request::Check { rules, task, certificate };
        (Question::Frame(request), Reply::Frame(Response::Check { rules, answer }))
    }

    fn proposed(
        &mut self,
        index: u64,
        random: &mut Random,
        task: &Task,
        solution: &Solution,
    ) -> Vec<u8> {
        if let Some(sweep) = self.options.sweep {
            return sweep.proposal(&solution.certificate, (index - self.options.first) as usize);
        }
        let kind = self.options.proposal.unwrap_or_else(|| random_kind(random, solution.rules));
        self.tally.add(format!("proposal:{}", kind.name()));
        proposal(random, task, solution, kind)
    }

    fn program_case(
        &mut self,
        rules: Rules,
        random: &mut Random,
        mut task: Vec<u8>,
    ) -> (Question, Reply) {
        if random.chance(3) {
            let length = INPUT_LIMIT + random.below(3) - 1 + random.below(2) * random.below(70_000);
            let kind = *random.pick(&[0, 1, 15]);
            task.resize(length, kind);
        }
        let text = compare_output_by(rules, &task);
        let first_line = text.lines().next().unwrap_or("");
        let mut words = first_line.split(' ');
        match words.next() {
            Some("REFUSED") => self.tally.add(format!("refusal:{}", words.next().unwrap_or(""))),
            Some("TOO") => self.tally.add("too-long"),
            _ => {
                let parsed = task::read(&task).expect("not refused");
                self.tally.add("refusal:0");
                self.tally.add_outcome(&parsed, &solve(rules, &parsed));
            }
        }
        (Question::Text(task), Reply::Text(text.into_bytes()))
    }

    fn ask(&mut self, question: &Question) -> Reply {
        let answer = match (&mut self.partner, question) {
            (Partner::Adapter(adapter), Question::Frame(request)) => {
                adapter.ask(request).map(Reply::Frame)
            }
            (Partner::Program(watch, command), Question::Text(input)) => {
                run_program(watch, command, input).map(Reply::Text)
            }
            _ => Err("the partner cannot do this operation".to_string()),
        };
        answer.unwrap_or_else(Reply::Failure)
    }

    fn report(&mut self, index: u64, question: &Question, expected: &Reply, given: &Reply) {
        self.mismatches += 1;
        let Options { operation, seed, .. } = self.options;
        println!("MISMATCH in {} of seed {seed}, item {index}", operation.name());
        let bytes = first_bytes(expected, given);
        println!("  reference: {}{}", bytes[0], describe(expected, given));
        println!("  partner:   {}{}", bytes[1], describe(given, expected));
        if let Some(what) = breach_of(given) {
            println!("  whatever is lent, there is never {what}");
        }
        let stem = format!("mismatch-{}-{seed}-{index}", operation.name());
        match question {
            Question::Frame(request) => {
                let payload = request.payload();
                let mut frame = (payload.len() as u32).to_le_bytes().to_vec();
                frame.extend_from_slice(&payload);
                self.save(&format!("{stem}.request"), &frame);
                self.save(&format!("{stem}.task"), request.task());
            }
            Question::Text(input) => self.save(&format!("{stem}.task"), input),
        }
    }

    fn save(&self, name: &str, bytes: &[u8]) {
        let path = self.options.save.join(name);
        let written =
            std::fs::create_dir_all(&self.options.save).and_then(|()| std::fs::write(&path, bytes));
        match written {
            Ok(()) => println!("  saved {}", path.display()),
            Err(error) => println!("  cannot save {}: {error}", path.display()),
        }
    }

    fn missing_counts(&self) -> Vec<String> {
        let required = self.options.required.iter();
        let short = required.filter(|(key, least)| self.tally.get(key) < *least);
        short.map(|(key, least)| format!("{key}: {} of {least}", self.tally.get(key))).collect()
    }
}

fn verdict_key(number: u32) -> String {
    Verdict::from_number(number).map_or("none".to_string(), Verdict::key)
}

/// What the task needs; made up where it is turned back.
fn needed_sizes(random: &mut Random, solved: &Option<(Task, Solution)>) -> Needed {
    match solved {
        Some((task, solution)) => Needed::of(task, solution),
        None => {
            let entries = random.below(5);
            Needed { entries, certificate: random.below(50), limit: entries }
        }
    }
}

/// What is wrong with an answer by itself: the same answer from the reference
/// makes it no better.
fn breach_of(reply: &Reply) -> Option<&'static str> {
    match reply {
        Reply::Frame(Response::Compare { answer, table, buffer, .. }) => {
            breach(answer, table, buffer)
        }
        _ => None,
    }
}

/// Alters one field of a partner's answer; false if it does not have it.
fn alter(random: &mut Random, reply: &mut Reply, field: &str) -> bool {
    match reply {
        Reply::Failure(_) => false,
        Reply::Text(text) => flip(random, text),
        Reply::Frame(Response::Read { refusal, dump }) => match field {
            "dump" => flip(random, dump),
            _ => add_one(refusal),
        },
        Reply::Frame(Response::Check { answer, .. }) => match field {
            "verdict" => add_one(&mut answer.verdict),
            "rounds" => add_one(&mut answer.rounds),
            _ => add_one(&mut answer.refusal),
        },
        Reply::Frame(Response::Compare { answer, table, buffer, .. }) => match field {
            "verdict" => add_one(&mut answer.verdict),
            "positions" => add_one(&mut answer.positions),
            "rounds" => add_one(&mut answer.rounds),
            "length" => add_one(&mut answer.certificate_length),
            "table" => flip(random, table),
            "buffer" => flip(random, buffer),
            _ => add_one(&mut answer.refusal),
        },
        // The runner asks for none, but a partner can answer so.
        Reply::Frame(Response::Reply { refusal, .. } | Response::FirstReply { refusal, .. }) => {
            add_one(refusal)
        }
    }
}

fn add_one(number: &mut u32) -> bool {
    *number = number.wrapping_add(1);
    true
}

fn flip(random: &mut Random, bytes: &mut [u8]) -> bool {
    if bytes.is_empty() {
        return false;
    }
    let place = random.below(bytes.len());
    bytes[place] ^= 1 << random.below(8);
    true
}

/// The bytes that two answers begin with, if they differ in that: an answer
/// to another question.
fn first_bytes(one: &Reply, two: &Reply) -> [String; 2] {
    match (one, two) {
        (Reply::Frame(one), Reply::Frame(two)) if one.first_byte() != two.first_byte() => {
            [one, two].map(|answer| format!("byte {}, ", answer.first_byte()))
        }
        _ => [String::new(), String::new()],
    }
}

/// An answer in words; long byte strings from where they differ.
fn describe(reply: &Reply, other: &Reply) -> String {
    match (reply, other) {
        (Reply::Failure(reason), _) => format!("no answer: {reason}"),
        (Reply::Text(text), _) => format!("{:?}", String::from_utf8_lossy(text)),
        (Reply::Frame(Response::Read { refusal, dump }), _) => {
            format!("refusal {refusal}, dump {}", hex(dump, 0))
        }
        (Reply::Frame(Response::Check { answer, .. }), _) => format!("{answer:?}"),
        (Reply::Frame(Response::Reply { refusal, answer }), _) => {
            format!("refusal {refusal}, answer {answer}")
        }
        (Reply::Frame(Response::FirstReply { refusal, found }), _) => {
            format!("refusal {refusal}, {found:?}")
        }
        (Reply::Frame(Response::Compare { answer, table, buffer, .. }), other) => {
            let (other_table, other_buffer) = match other {
                Reply::Frame(Response::Compare { table, buffer, .. }) => (&table[..], &buffer[..]),
                _ => (&[][..], &[][..]),
            };
            let table_text = hex(table, first_difference(table, other_table));
            let buffer_text = hex(buffer, first_difference(buffer, other_buffer));
            format!("{answer:?}\n    table {table_text}\n    buffer {buffer_text}")
        }
    }
}

fn first_difference(one: &[u8], two: &[u8]) -> usize {
    one.iter().zip(two).take_while(|(a, b)| a == b).count()
}

fn hex(bytes: &[u8], from: usize) -> String {
    let shown: Vec<String> = bytes.iter().skip(from).take(64).map(|b| format!("{b:02x}")).collect();
    format!("({} bytes, from {from}) {}", bytes.len(), shown.join(" "))
}
