//! The text form of a task: one line for each record but the end record, which the end of the text stands for.
//!
//! The table below has the form of each line and serves both directions. What a task may not be (refusals 4 to 10 and 15)
//! is not decided here: a text becomes bytes, and the bytes are read.
use crate::model::{Edge, RegisterSet};
use crate::task::{self, Refusal, EDGE, END, HEADER, HISTORY, KINDS, PAIR, STATE};
use std::fmt;

/// A part of a line: a fixed word, or the words for one byte of the record's body.
enum Part {
    Word(&'static str),
    /// A number; the text says what is expected.
    Number(usize, &'static str),
    /// A set of registers.
    Registers(usize),
    /// One of these phrases; the byte is the phrase's place.
    Phrase(usize, &'static [&'static str]),
}

use Part::{Number, Phrase, Registers, Word};

/// Places in a text. A line is allowed in some of them, and may lead to the next.
const NOTHING_YET: u8 = 0;
const IN_LEFT: u8 = 1;
const IN_RIGHT: u8 = 2;
const IN_PAIRS: u8 = 3;
const AFTER_HISTORY: u8 = 4;

struct Form {
    /// The first word, which no other form has.
    word: &'static str,
    /// What follows the first word.
    parts: &'static [Part],
    indent: &'static str,
    kind: u8,
    /// The first and the last place where such a line is allowed.
    allowed: (u8, u8),
    /// The place that the line leads to; none if it stays where it is.
    leads: Option<u8>,
    /// Lines of this kind may stand in any order and are sorted by their bodies.
    sorted: bool,
}

/// A later kind of line is one more row.
#[rustfmt::skip]
const FORMS: &[Form] = &[
    Form { word: "left", parts: MODEL, indent: "", kind: HEADER,
        allowed: (NOTHING_YET, NOTHING_YET), leads: Some(IN_LEFT), sorted: false },
    Form { word: "right", parts: MODEL, indent: "", kind: HEADER,
        allowed: (IN_LEFT, IN_LEFT), leads: Some(IN_RIGHT), sorted: false },
    Form { word: "state", parts: STATE_PARTS, indent: "  ", kind: STATE,
        allowed: (IN_LEFT, IN_RIGHT), leads: None, sorted: false },
    Form { word: "edge", parts: EDGE_PARTS, indent: "  ", kind: EDGE,
        allowed: (IN_LEFT, IN_RIGHT), leads: None, sorted: true },
    Form { word: "pair", parts: PAIR_PARTS, indent: "", kind: PAIR,
        allowed: (IN_RIGHT, IN_PAIRS), leads: Some(IN_PAIRS), sorted: false },
    Form { word: "history", parts: HISTORY_PARTS, indent: "", kind: HISTORY,
        allowed: (IN_RIGHT, IN_PAIRS), leads: Some(AFTER_HISTORY), sorted: false },
];

const MODEL: &[Part] = &[
    Word("registers"),
    Number(0, "a count of registers from 0 to 6"),
    Word("start"),
    Number(2, "a start state from 0 to 15"),
];
const STATE_PARTS: &[Part] = &[
    Number(0, "a state from 0 to 15"),
    Word("holds"),
    Registers(1),
    Word("end"),
    Number(2, "end mark 0 or 1"),
];
const EDGE_PARTS: &[Part] = &[
    Word("from"),
    Number(0, "a state from 0 to 15"),
    Word("tag"),
    Number(1, "a tag from 0 to 31"),
    Phrase(2, &["known", "locally fresh", "globally fresh"]),
    Number(3, "a register from 1 to 6"),
    Word("to"),
    Number(4, "a state from 0 to 15"),
];
const PAIR_PARTS: &[Part] = &[
    Word("left"),
    Number(0, "a register from 1 to 6"),
    Word("right"),
    Number(1, "a register from 1 to 6"),
];

const HISTORY_PARTS: &[Part] = &[Number(0, "a history size from 0 to 13")];

/// Why a text is no task: the line, what was expected there, and the refusal of 01 where there is one.
#[derive(Clone, PartialEq, Eq, Debug)]
pub struct Problem {
    pub line: usize,
    pub refusal: Option<u8>,
    pub words: String,
}

impl fmt::Display for Problem {
    fn fmt(&self, out: &mut fmt::Formatter) -> fmt::Result {
        let Problem { line, words, .. } = self;
        match self.refusal {
            Some(number) => write!(out, "REFUSED {number} at line {line}: {words}"),
            None => write!(out, "line {line}: {words}"),
        }
    }
}

/// The canonical text of task bytes.
pub fn from_bytes(bytes: &[u8]) -> Result<String, Refusal> {
    let (_, records) = task::read(bytes)?;
    let mut text = String::new();
    let mut place = NOTHING_YET;
    for record in records {
        let form = FORMS
            .iter()
            .find(|form| form.kind == record.kind.byte && form.is_allowed(place));
        // The end record has no line.
        let Some(form) = form else { continue };
        place = form.leads.unwrap_or(place);
        let Form { indent, word, .. } = form;
        text += &format!("{indent}{word} {}\n", print(form.parts, record.body));
    }
    Ok(text)
}

/// An edge in the words of its line, without the word `edge`.
pub fn edge_words(edge: &Edge) -> String {
    print(EDGE_PARTS, &edge.body())
}

fn print(parts: &[Part], body: &[u8]) -> String {
    let words: Vec<String> = parts.iter().map(|part| part.print(body)).collect();
    words.join(" ")
}

/// The task bytes of a text.
pub fn to_bytes(text: &[u8]) -> Result<Vec<u8>, Problem> {
    let mut lines = parse(text)?;
    count_states(&mut lines);
    // Stable: states and pairs stay as they stand, so that it can be said where they do not rise. Equal edges too.
    lines.sort_by(|a, b| a.order().cmp(&b.order()));
    let mut bytes = Vec::new();
    let mut begins = Vec::new();
    for line in &lines {
        begins.push(bytes.len());
        bytes.push(line.form.kind);
        bytes.extend(&line.body);
    }
    bytes.push(END);
    match task::read(&bytes) {
        Ok(_) => Ok(bytes),
        Err(refusal) => Err(in_lines(&refusal, &lines, &begins)),
    }
}

/// A refusal of the bytes as a problem of the line that they came from.
fn in_lines(refusal: &Refusal, lines: &[Line], begins: &[usize]) -> Problem {
    let place = begins.partition_point(|&begin| begin < refusal.at);
    let line = |place: usize| lines.get(place).map_or(0, |line| line.number);
    let words = match refusal.number {
        // Edges are sorted here, so one that does not rise is equal to the one before it.
        8 => format!(
            "expected each edge once, found the edge of line {} again",
            line(place.saturating_sub(1))
        ),
        _ => refusal.words.clone(),
    };
    Problem {
        line: line(place),
        refusal: Some(refusal.number),
        words,
    }
}

/// A line of the text that stands for a record.
struct Line {
    number: usize,
    place: u8,
    form: &'static Form,
    body: Vec<u8>,
}

impl Line {
    /// Where the record stands in the file: by part, then by kind, then by body where that kind is sorted.
    fn order(&self) -> (u8, u8, &[u8]) {
        let body = if self.form.sorted {
            &self.body[..]
        } else {
            &[]
        };
        (self.place, self.form.kind, body)
    }
}

/// Headers count the states of their models. A count that no byte holds is refused like any other above 16.
fn count_states(lines: &mut [Line]) {
    let counts = [IN_LEFT, IN_RIGHT].map(|place| {
        let in_model = |line: &&Line| line.form.kind == STATE && line.place == place;
        lines.iter().filter(in_model).count().min(255) as u8
    });
    for line in lines.iter_mut().filter(|line| line.form.kind == HEADER) {
        line.body[1] = counts[usize::from(line.place == IN_RIGHT)];
    }
}

fn parse(text: &[u8]) -> Result<Vec<Line>, Problem> {
    let mut lines = Vec::new();
    let mut place = NOTHING_YET;
    let mut number = 0;
    for line in text.split(|&byte| byte == b'\n') {
        number += 1;
        let line = std::str::from_utf8(line)
            .map_err(|_| problem(number, "expected text, found bytes that are none"))?;
        let words: Vec<&str> = uncommented(line).split_whitespace().collect();
        if !words.is_empty() {
            let line = Cursor::new(number, &words).line(place)?;
            place = line.place;
            lines.push(line);
        }
    }
    if place < IN_RIGHT {
        let words = format!("expected {}, found the end of the text", first_words(place));
        return Err(problem(text_lines(text), &words));
    }
    Ok(lines)
}

fn uncommented(line: &str) -> &str {
    line.split('#').next().unwrap_or("")
}

/// How many lines a text has; an empty one counts as one.
fn text_lines(text: &[u8]) -> usize {
    let text = text.strip_suffix(b"\n").unwrap_or(text);
    text.split(|&byte| byte == b'\n').count()
}

fn problem(line: usize, words: &str) -> Problem {
    Problem {
        line,
        refusal: None,
        words: words.into(),
    }
}

/// The first words of the lines that are allowed at a place, as a choice.
fn first_words(place: u8) -> String {
    let allowed = FORMS.iter().filter(|form| form.is_allowed(place));
    choice(&allowed.map(|form| form.word).collect::<Vec<_>>())
}

fn choice(words: &[&str]) -> String {
    let quoted: Vec<String> = words.iter().map(|word| format!("`{word}`")).collect();
    match quoted.split_last() {
        Some((last, [])) => last.clone(),
        Some((last, rest)) => format!("{} or {last}", rest.join(", ")),
        None => "nothing more".into(),
    }
}

impl Form {
    fn is_allowed(&self, place: u8) -> bool {
        self.allowed.0 <= place && place <= self.allowed.1
    }
}

impl Part {
    fn print(&self, body: &[u8]) -> String {
        match self {
            Word(word) => word.to_string(),
            Number(byte, _) => body[*byte].to_string(),
            Registers(byte) if body[*byte] == 0 => "nothing".into(),
            Registers(byte) => {
                let registers = RegisterSet(body[*byte]).registers();
                let words: Vec<String> = registers.map(|register| register.to_string()).collect();
                words.join(" ")
            }
            Phrase(byte, phrases) => phrases[usize::from(body[*byte])].into(),
        }
    }

    fn parse(&self, cursor: &mut Cursor, body: &mut [u8]) -> Result<(), Problem> {
        match self {
            Word(word) => cursor.word(word)?,
            Number(byte, what) => body[*byte] = cursor.number(what)?,
            Registers(byte) => body[*byte] = cursor.registers()?,
            Phrase(byte, phrases) => body[*byte] = cursor.phrase(phrases)?,
        }
        Ok(())
    }
}

/// The words of a line that are still to be read.
struct Cursor<'a> {
    line: usize,
    rest: &'a [&'a str],
}

impl<'a> Cursor<'a> {
    fn new(line: usize, rest: &'a [&'a str]) -> Self {
        Cursor { line, rest }
    }

    fn expected<T>(&self, what: &str) -> Result<T, Problem> {
        let found = match self.rest.first() {
            Some(word) => format!("`{}`", shortened(word)),
            None => "the end of the line".into(),
        };
        let words = format!("expected {what}, found {found}");
        Err(problem(self.line, &words))
    }

    /// The whole line, at this place of the text.
    fn line(mut self, place: u8) -> Result<Line, Problem> {
        let form = FORMS
            .iter()
            .find(|form| self.rest.first() == Some(&form.word) && form.is_allowed(place));
        let Some(form) = form else {
            return self.expected(&first_words(place));
        };
        self.word(form.word)?;
        let kind = KINDS.iter().find(|kind| kind.byte == form.kind);
        let mut body = vec![0; kind.map_or(0, |kind| kind.length)];
        for part in form.parts {
            part.parse(&mut self, &mut body)?;
        }
        if !self.rest.is_empty() {
            return self.expected("the end of the line");
        }
        Ok(Line {
            number: self.line,
            place: form.leads.unwrap_or(place),
            form,
            body,
        })
    }

    fn word(&mut self, word: &str) -> Result<(), Problem> {
        match self.rest.split_first() {
            Some((first, rest)) if *first == word => self.rest = rest,
            _ => return self.expected(&choice(&[word])),
        }
        Ok(())
    }

    /// A number that a byte holds. Whether 01 allows it is decided when the bytes are read.
    fn number(&mut self, what: &str) -> Result<u8, Problem> {
        let Some((value, rest)) = self.rest.split_first().and_then(|(word, rest)| {
            let digits = is_number(word).then_some(word)?;
            Some((digits.parse().ok()?, rest))
        }) else {
            return self.expected(what);
        };
        self.rest = rest;
        Ok(value)
    }

    fn registers(&mut self) -> Result<u8, Problem> {
        if self.rest.first() == Some(&"nothing") {
            self.word("nothing")?;
            return Ok(0);
        }
        let mut set = 0;
        while set == 0 || self.rest.first().is_some_and(|word| is_number(word)) {
            let before = Cursor::new(self.line, self.rest);
            let register = self.number("registers from 1 to 6, or `nothing`")?;
            if !(1..=8).contains(&register) {
                return before.expected("a register from 1 to 6");
            }
            let bit = 1 << (register - 1);
            if set & bit != 0 {
                return before.expected("each register once");
            }
            set |= bit;
        }
        Ok(set)
    }

    fn phrase(&mut self, phrases: &[&str]) -> Result<u8, Problem> {
        let first = |phrase: &str| phrase.split(' ').next() == self.rest.first().copied();
        let Some(place) = phrases.iter().position(|phrase| first(phrase)) else {
            return self.expected(&choice(phrases));
        };
        for word in phrases[place].split(' ') {
            self.word(word)?;
        }
        Ok(place as u8)
    }
}

fn is_number(word: &str) -> bool {
    word.bytes().all(|byte| byte.is_ascii_digit())
}

/// A word as a message shows it: short, and without control characters.
fn shortened(word: &str) -> String {
    const LONGEST: usize = 40;
    let shown: String = word.chars().take(LONGEST).collect();
    let dots = if shown.len() < word.len() { "..." } else { "" };
    format!("{}{dots}", shown.escape_debug())
}
