//! The growth as a picture: time for each position over positions, both axes by powers of ten, as plain SVG. A family has a
//! colour and a shape; the library's points stand beside the baseline's, which are lighter and joined by dashes.
use crate::{Cost, Row};
use std::fmt::Write;

const WIDTH: f64 = 760.0;
const HEIGHT: f64 = 460.0;
/// The corners of the plot.
const LEFT: f64 = 70.0;
const RIGHT: f64 = 560.0;
const TOP: f64 = 40.0;
const BOTTOM: f64 = 400.0;

const GRID: &str = "#dddddd";
const LEGEND: &str = "#555555";
const COLOURS: [&str; SHAPES] =
    ["#1f5a99", "#c9661a", "#2d8a4e", "#a3312f", "#6b4ba1", "#8a6d1d", "#c2408f", "#222222"];

/// Whose times are drawn, and how.
struct Side {
    words: &'static str,
    cost: fn(&Row) -> Cost,
    dashes: &'static str,
    opacity: f64,
}

const SIDES: [Side; 2] = [
    Side { words: "static library", cost: |row| row.library, dashes: "none", opacity: 1.0 },
    Side { words: "heap baseline", cost: |row| row.baseline, dashes: "5 4", opacity: 0.5 },
];

/// An axis from one power of ten to another, drawn between two places.
struct Axis {
    low: i32,
    high: i32,
    begin: f64,
    end: f64,
}

impl Axis {
    fn over(values: impl Iterator<Item = f64> + Clone, begin: f64, end: f64) -> Axis {
        let least = values.clone().fold(f64::INFINITY, f64::min);
        let most = values.fold(0.0, f64::max);
        let low = least.log10().floor() as i32;
        Axis { low, high: (most.log10().ceil() as i32).max(low + 1), begin, end }
    }

    fn at(&self, value: f64) -> f64 {
        let part = (value.log10() - self.low as f64) / (self.high - self.low) as f64;
        self.begin + part * (self.end - self.begin)
    }
}

/// 1000 as "1,000".
fn grouped(power: i32) -> String {
    if power < 0 {
        return format!("{}", 10f64.powi(power));
    }
    let digits = 10u64.pow(power as u32).to_string();
    let parts: Vec<&str> = digits.as_bytes().rchunks(3).rev().map(|part| std::str::from_utf8(part).unwrap()).collect();
    parts.join(",")
}

fn nanoseconds(cost: Cost, row: &Row) -> f64 {
    cost.seconds * 1e9 / row.positions as f64
}

/// The family without its sizes; and the way, where it is not that of most rows.
fn name(row: &Row) -> String {
    let family = row.family.split(' ').next().expect("a name");
    match row.way.as_str() {
        "bits" => family.to_string(),
        way => format!("{family}, {way}"),
    }
}

fn names(rows: &[Row]) -> Vec<String> {
    let mut list = Vec::new();
    for row in rows {
        if !list.contains(&name(row)) {
            list.push(name(row));
        }
    }
    list
}

const SHAPES: usize = 8;

/// A small shape in a colour that both stand for a family.
fn shape(number: usize, x: f64, y: f64) -> String {
    let colour = COLOURS[number % SHAPES];
    let path = match number % SHAPES {
        0 => "M-4,-4 H4 V4 H-4 Z",
        1 => "M0,-5 L5,4 L-5,4 Z",
        2 => "M0,-5 L5,0 L0,5 L-5,0 Z",
        3 => "M-5,-4 L5,-4 L0,5 Z",
        4 => "M-4,-4 L4,4 M-4,4 L4,-4",
        5 => "M0,-5 V5 M-5,0 H5",
        6 => "M-5,-2 H5 V2 H-5 Z",
        _ => "M-5,0 A5,5 0 1 0 5,0 A5,5 0 1 0 -5,0 Z",
    };
    format!(
        "<path transform=\"translate({x:.1} {y:.1})\" d=\"{path}\" fill=\"{colour}\" fill-opacity=\"0.4\" stroke=\"{colour}\" \
         stroke-width=\"1.5\" stroke-dasharray=\"none\"/>\n"
    )
}

fn text(x: f64, y: f64, anchor: &str, words: &str) -> String {
    format!("<text x=\"{x:.1}\" y=\"{y:.1}\" text-anchor=\"{anchor}\">{words}</text>\n")
}

fn line(from: (f64, f64), to: (f64, f64), colour: &str) -> String {
    let ((x1, y1), (x2, y2)) = (from, to);
    format!("<line x1=\"{x1:.1}\" y1=\"{y1:.1}\" x2=\"{x2:.1}\" y2=\"{y2:.1}\" stroke=\"{colour}\"/>\n")
}

/// What is drawn within has the side's dashes and is as light.
fn by(side: &Side, drawn: &str) -> String {
    let Side { dashes, opacity, .. } = side;
    format!("<g stroke-dasharray=\"{dashes}\" opacity=\"{opacity}\">\n{drawn}</g>\n")
}

fn grid(across: &Axis, up: &Axis) -> String {
    let mut out = String::new();
    for power in across.low..=across.high {
        let x = across.at(10f64.powi(power));
        out += &line((x, TOP), (x, BOTTOM), GRID);
        out += &text(x, BOTTOM + 18.0, "middle", &grouped(power));
    }
    for power in up.low..=up.high {
        let y = up.at(10f64.powi(power));
        out += &line((LEFT, y), (RIGHT, y), GRID);
        out += &text(LEFT - 8.0, y + 4.0, "end", &grouped(power));
    }
    out += &text((LEFT + RIGHT) / 2.0, BOTTOM + 42.0, "middle", "positions reached");
    out + &text(LEFT, TOP - 16.0, "start", "nanoseconds for each position")
}

/// The points of one side, those of a family joined.
fn points(rows: &[Row], across: &Axis, up: &Axis, side: &Side) -> String {
    let mut out = String::new();
    let time = |row: &Row| nanoseconds((side.cost)(row), row);
    for (number, family) in names(rows).into_iter().enumerate() {
        let own = rows.iter().filter(|row| name(row) == family);
        let places: Vec<(f64, f64)> = own.map(|row| (across.at(row.positions as f64), up.at(time(row)))).collect();
        places.windows(2).for_each(|two| out += &line(two[0], two[1], COLOURS[number % SHAPES]));
        places.iter().for_each(|&(x, y)| out += &shape(number, x, y));
    }
    by(side, &out)
}

fn legend(rows: &[Row]) -> String {
    let mut out = String::new();
    let x = RIGHT + 26.0;
    let mut y = TOP + 10.0;
    for side in &SIDES {
        out += &by(side, &line((x - 14.0, y), (x + 8.0, y), LEGEND));
        out += &text(x + 16.0, y + 4.0, "start", side.words);
        y += 20.0;
    }
    y += 12.0;
    for (number, family) in names(rows).into_iter().enumerate() {
        out += &shape(number, x, y);
        out += &text(x + 16.0, y + 4.0, "start", &family);
        y += 20.0;
    }
    out
}

pub fn draw(rows: &[Row]) -> String {
    let across = Axis::over(rows.iter().map(|row| row.positions as f64), LEFT, RIGHT);
    let times = rows.iter().flat_map(|row| [nanoseconds(row.library, row), nanoseconds(row.baseline, row)]);
    let up = Axis::over(times, BOTTOM, TOP);
    let mut out = String::new();
    write!(
        out,
        "<svg xmlns=\"http://www.w3.org/2000/svg\" width=\"{WIDTH}\" height=\"{HEIGHT}\" viewBox=\"0 0 {WIDTH} {HEIGHT}\" \
         font-family=\"sans-serif\" font-size=\"12\">\n<rect width=\"100%\" height=\"100%\" fill=\"white\"/>\n"
    )
    .expect("writing to a string");
    out += &grid(&across, &up);
    // The library's last, so that they lie above the baseline's.
    SIDES.iter().rev().for_each(|side| out += &points(rows, &across, &up, side));
    out += &legend(rows);
    out + "</svg>\n"
}
