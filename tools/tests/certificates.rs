//! Explanations of generated certificates, and of altered ones, which are explained exactly if the reference's checker
//! accepts them.
use crate::adapter::Adapter;
use crate::programs::{self, EXPLAIN};
use crate::random::Random;
use crate::samples::ends_with_reason;
use crate::tally::{same, Tally};
use tools::game::Game;
use tools::{explain, task};

/// A verdict, and how many certificates of it are explained.
struct Verdict {
    game: Game,
    kind: u8,
    name: &'static str,
    count: usize,
}

#[rustfmt::skip]
const VERDICTS: [Verdict; 4] = [
    Verdict { game: Game::Equality, kind: 16, name: "EQUAL",       count: 200 },
    Verdict { game: Game::Equality, kind: 17, name: "DIFFER",      count: 500 },
    Verdict { game: Game::OneWay,   kind: 18, name: "FOLLOWS",     count: 100 },
    Verdict { game: Game::OneWay,   kind: 19, name: "FALLS SHORT", count: 200 },
];

const ALTERED: usize = 8_000;
/// In each game an altered certificate is accepted, or refused with 13 or with 14, so often at least.
const LEAST: usize = 100;
/// The lengths of the records of kept and of lost positions, and where the history's size stands in both.
const KEPT: usize = 10;
const LOST: usize = 17;
const SIZE: usize = 9;

struct Compared {
    task: Vec<u8>,
    certificate: Vec<u8>,
}

impl Compared {
    fn is_kept(&self) -> bool {
        self.certificate[0] % 2 == 0
    }

    fn record_length(&self) -> usize {
        if self.is_kept() {
            KEPT
        } else {
            LOST
        }
    }
}

pub fn run(tally: &mut Tally, tasks: &[Vec<u8>]) -> Result<(), String> {
    let mut reference = Adapter::start()?;
    let mut all = Vec::new();
    for verdict in &VERDICTS {
        let Verdict { name, count, .. } = verdict;
        let compared = compared(&mut reference, tasks, verdict)?;
        let enough = same("their count", compared.len(), *count);
        tally.check(&format!("enough {name}"), enough);
        let explained = compared.iter().try_for_each(|one| explained(one, name));
        tally.check(&format!("explain {name}"), explained);
        all.extend(compared);
    }
    tally.check(
        "altered certificates",
        altered_certificates(&mut reference, &all),
    );
    reference.stop()
}

/// The first tasks with this verdict, with their certificates.
fn compared(
    reference: &mut Adapter,
    tasks: &[Vec<u8>],
    verdict: &Verdict,
) -> Result<Vec<Compared>, String> {
    let mut list = Vec::new();
    for task in tasks {
        if list.len() == verdict.count {
            break;
        }
        match reference.compare(verdict.game, task)? {
            Some(certificate) if certificate[0] == verdict.kind => list.push(Compared {
                task: task.clone(),
                certificate,
            }),
            _ => {}
        }
    }
    Ok(list)
}

/// What the program prints; anything but success is an error.
fn explanation(compared: &Compared) -> Result<String, String> {
    let task = programs::file("explained.task", &compared.task)?;
    let certificate = programs::file("explained.certificate", &compared.certificate)?;
    let printed = programs::run(EXPLAIN, &[&task, &certificate], b"")?;
    same("the messages", &printed.errors[..], "")?;
    same("the status", printed.status, Some(0))?;
    String::from_utf8(printed.out).map_err(|error| error.to_string())
}

/// It says the verdict, and then how many positions were kept, or how the attack goes to its end: the comparer lists what
/// its attacks lead to and nothing else, so there is a step for each record.
fn explained(compared: &Compared, verdict: &str) -> Result<(), String> {
    let text = explanation(compared)?;
    same("the verdict", text.split(':').next(), Some(verdict))?;
    let records = compared.certificate.len() / compared.record_length();
    if compared.is_kept() {
        let counted = text.contains(&format!(" {records} position"));
        return same("the count", counted, true);
    }
    let steps = text
        .lines()
        .filter(|line| line.starts_with("Step "))
        .count();
    same("the steps", steps, records)?;
    ends_with_reason(&text)
}

/// The game that a certificate's kind stands for; where it stands for none, either check refuses it.
fn game_of(certificate: &[u8]) -> Game {
    match certificate.first() {
        Some(18 | 19) => Game::OneWay,
        _ => Game::Equality,
    }
}

/// Accepted, refused with 13, and with 14, by game.
type Counts = [[usize; 3]; 2];

fn altered_certificates(reference: &mut Adapter, all: &[Compared]) -> Result<(), String> {
    let mut random = Random::new(4);
    let mut counts: Counts = [[0; 3]; 2];
    for _ in 0..ALTERED {
        let compared = &all[random.below(all.len())];
        let altered = altered(compared, &mut random);
        let game = game_of(&altered);
        let expected = reference.check(game, &compared.task, &altered)?;
        let (read, _) = task::read(&compared.task).map_err(|refusal| refusal.to_string())?;
        let found = match explain::explain(&read, &altered) {
            Ok(_) => 0,
            Err(refusal) => refusal.number,
        };
        same("the checker's answer", u32::from(found), expected)?;
        let place = [0, 13, 14].iter().position(|&number| number == found);
        counts[game as usize][place.ok_or("another refusal")?] += 1;
    }
    println!("{ALTERED} altered certificates, accepted, refused with 13, with 14: {counts:?}");
    let enough = counts.as_flattened().iter().all(|&count| count >= LEAST);
    same("each often enough", enough, true)
}

/// A certificate with a record left out or put in, a small change of a byte, or an end cut off.
fn altered(compared: &Compared, random: &mut Random) -> Vec<u8> {
    let mut bytes = compared.certificate.clone();
    let length = compared.record_length();
    let record = random.below(bytes.len() / length) * length;
    match random.below(8) {
        0 => drop(bytes.drain(record..record + length)),
        1 => bytes.truncate(random.below(bytes.len())),
        2 => {
            let place = random.below(bytes.len());
            bytes[place] = random.byte();
        }
        3 => {
            // The same position after it, with a number more in the history.
            let mut larger = bytes[record..record + length].to_vec();
            larger[SIZE] += 1;
            let place = record + length;
            bytes.splice(place..place, larger);
        }
        _ => {
            let place = record + random.below(length);
            let change = [1, 255, 2, 7][random.below(4)];
            bytes[place] = bytes[place].wrapping_add(change);
        }
    }
    bytes
}
