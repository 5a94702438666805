//! Runs `measure` over families of growing size, prints the table, and draws it.
//!
//!     growth --runs K --limit POSITIONS [--picture FILE]
mod picture;

use std::collections::BTreeMap;
use std::fmt;
use std::path::{Path, PathBuf};
use std::process::Command;

/// A family with its sizes, and the positions that it reaches, so that what is too large is left out unmeasured. Where a game
/// stands before it, that one is played; where a history size stands after it, the task states it.
const FAMILIES: [(&str, usize); 28] = [
    ("dearest 4", 209),
    ("dearest 5", 1_546),
    ("dearest 6", 13_327),
    ("dearest-equal 4", 209),
    ("dearest-equal 5", 1_546),
    ("dearest-equal 6", 13_327),
    ("rings 16 15", 240),
    ("ring 4 6", 209_569),
    ("ring-equal 4 6", 209_569),
    ("ring-late 12 5", 218_161),
    ("rings-fresh 12 11 5", 203_941),
    ("ring 16 6", 3_027_331),
    ("ring-equal 16 6", 3_027_331),
    ("ring-late 16 6", 3_027_331),
    ("rings-fresh 16 15 6", 3_062_014),
    ("rings-fresh 16 12 3", 1_585),
    ("rings-fresh 16 12 4", 9_985),
    ("rings-fresh 16 12 5", 73_921),
    ("rings-fresh 16 12 6", 631_401),
    ("one-way dearest-equal 5", 1_546),
    ("one-way rings 16 15", 240),
    ("one-way rings-fresh 12 11 5", 203_941),
    ("dearest-equal 4 --history 8", 1_249),
    ("dearest-equal 6 --history 12", 26_653),
    ("rings-fresh 12 11 4 --history 8", 27_953),
    ("ring-late 12 5 --history 10", 218_586),
    ("filling 12 4 --history 0", 33_632),
    ("filling-equal 13 3 --history 0", 47_041),
];

const HISTORY: &str = "--history";
const ONE_WAY: &str = "one-way";
const EQUALITY: &str = "equality";

type Failure = Box<dyn std::error::Error>;

/// The `name value` lines that a program printed.
struct Lines(BTreeMap<String, String>);

impl Lines {
    fn number<T: std::str::FromStr>(&self, name: &str) -> Result<T, Failure> {
        let text = self.0.get(name).ok_or(format!("no line {name}"))?;
        text.parse().map_err(|_| format!("{name} is {text}").into())
    }
}

fn measure(arguments: &[&str]) -> Result<Lines, Failure> {
    let output = Command::new("target/bench/measure").args(arguments).output()?;
    if !output.status.success() {
        return Err(format!("measure {arguments:?}: {}", String::from_utf8_lossy(&output.stderr)).into());
    }
    let text = String::from_utf8(output.stdout)?;
    let pairs = text.lines().filter_map(|line| line.split_once(' '));
    Ok(Lines(pairs.map(|(name, value)| (name.to_string(), value.to_string())).collect()))
}

/// What one side took, the least of all runs.
#[derive(Clone, Copy)]
pub struct Cost {
    pub seconds: f64,
    kilobytes: u64,
}

impl Cost {
    const NONE: Cost = Cost { seconds: f64::INFINITY, kilobytes: u64::MAX };

    fn add(&mut self, lines: &Lines) -> Result<(), Failure> {
        self.seconds = self.seconds.min(lines.number("seconds")?);
        self.kilobytes = self.kilobytes.min(lines.number("kilobytes")?);
        Ok(())
    }
}

pub struct Row {
    pub family: &'static str,
    game: &'static str,
    task: PathBuf,
    /// How the library tells, with a table of exactly its positions, what it has found: `bits` or `chains`.
    pub way: String,
    pub positions: usize,
    rounds: u32,
    length: usize,
    passes: u64,
    /// Edge pairs tried, exploring and ranking.
    pairs: u64,
    digest: String,
    pub library: Cost,
    pub baseline: Cost,
}

impl Row {
    fn new(family: &'static str, stated: usize) -> Result<Row, Failure> {
        let task = Path::new("target/bench").join(family.replace(' ', "-")).with_extension("task");
        let mut words: Vec<&str> = family.split(' ').collect();
        let game = if words[0] == ONE_WAY { words.remove(0) } else { EQUALITY };
        let made = Command::new("target/reference/reference-generate").arg("family").args(words).output()?;
        std::fs::write(&task, made.stdout)?;
        let counted = measure(&[game, "count", &task.to_string_lossy()])?;
        let positions = counted.number("positions")?;
        if positions != stated {
            return Err(format!("{family} reaches {positions} positions").into());
        }
        let exploring: u64 = counted.number("exploring")?;
        let ranking: u64 = counted.number("ranking")?;
        Ok(Row {
            family,
            game,
            task,
            way: counted.number("way")?,
            positions,
            rounds: counted.number("rounds")?,
            length: counted.number("length")?,
            passes: counted.number("passes")?,
            pairs: exploring + ranking,
            digest: counted.number("digest")?,
            library: Cost::NONE,
            baseline: Cost::NONE,
        })
    }

    /// One run of each, in turn, so that a busy time of the machine meets both.
    fn run(&mut self) -> Result<(), Failure> {
        let task = self.task.to_string_lossy();
        let (entries, length) = (self.positions.to_string(), self.length.to_string());
        let lines = measure(&[self.game, "library", &task, &entries, &length])?;
        if lines.number::<String>("digest")? != self.digest {
            return Err(format!("{}: the library's table or certificate is not the reference's", self.family).into());
        }
        self.library.add(&lines)?;
        self.baseline.add(&measure(&[self.game, "baseline", &task])?)
    }
}

/// The columns, with their widths.
const COLUMNS: [(&str, usize); 14] = [
    ("family", 31),
    ("way", 6),
    ("positions", 9),
    ("rounds", 6),
    ("passes", 6),
    ("edge pairs", 11),
    ("library, s", 10),
    ("ns a pair", 9),
    ("ns a position", 13),
    ("baseline, s", 11),
    ("ns a position", 13),
    ("ratio", 5),
    ("library, MB", 11),
    ("baseline, MB", 12),
];

fn head() -> String {
    let names: Vec<String> = COLUMNS.iter().map(|(name, width)| format!("{name:<width$}")).collect();
    let rules: Vec<String> = COLUMNS.iter().map(|(_, width)| "-".repeat(*width)).collect();
    format!("| {} |\n|-{}-|", names.join(" | "), rules.join("-|-"))
}

impl fmt::Display for Row {
    fn fmt(&self, f: &mut fmt::Formatter) -> fmt::Result {
        let (library, baseline) = (self.library, self.baseline);
        let nanoseconds = |cost: Cost, count: u64| format!("{:.1}", cost.seconds * 1e9 / count as f64);
        let megabytes = |cost: Cost| format!("{:.1}", cost.kilobytes as f64 / 1e3);
        let positions = self.positions as u64;
        let fields = [
            self.family.to_string(),
            self.way.clone(),
            positions.to_string(),
            self.rounds.to_string(),
            self.passes.to_string(),
            self.pairs.to_string(),
            format!("{:.6}", library.seconds),
            nanoseconds(library, self.pairs),
            nanoseconds(library, positions),
            format!("{:.6}", baseline.seconds),
            nanoseconds(baseline, positions),
            format!("{:.2}", library.seconds / baseline.seconds),
            megabytes(library),
            megabytes(baseline),
        ];
        write!(f, "| {:<31} | {:<6}", fields[0], fields[1])?;
        let numbers = fields.iter().zip(COLUMNS).skip(2);
        numbers.into_iter().try_for_each(|(field, (_, width))| write!(f, " | {field:>width$}"))?;
        f.write_str(" |")
    }
}

struct Options {
    runs: usize,
    limit: usize,
    picture: Option<String>,
}

fn options() -> Option<Options> {
    let mut options = Options { runs: 1, limit: usize::MAX, picture: None };
    let arguments: Vec<String> = std::env::args().skip(1).collect();
    for flag in arguments.chunks(2) {
        let [name, value] = flag else {
            return None;
        };
        match name.as_str() {
            "--runs" => options.runs = value.parse().ok().filter(|n| *n > 0)?,
            "--limit" => options.limit = value.parse().ok()?,
            "--picture" => options.picture = Some(value.clone()),
            _ => return None,
        }
    }
    Some(options)
}

fn main() -> Result<(), Failure> {
    let options = options().ok_or("growth --runs K --limit POSITIONS [--picture FILE]")?;
    let fitting = FAMILIES.iter().filter(|(_, positions)| *positions <= options.limit);
    let mut rows = fitting.map(|&(family, positions)| Row::new(family, positions)).collect::<Result<Vec<_>, _>>()?;
    for _ in 0..options.runs {
        rows.iter_mut().try_for_each(Row::run)?;
    }
    println!("{}", head());
    rows.iter().for_each(|row| println!("{row}"));
    println!("\nSeconds on the processor, least of {} runs; megabytes of the whole process at its peak.", options.runs);
    if let Some(file) = options.picture {
        // Points of the other game, and of small histories, would stand among those of their families.
        rows.retain(|row| row.game == EQUALITY && !row.family.contains(HISTORY));
        std::fs::write(file, picture::draw(&rows))?;
    }
    Ok(())
}
