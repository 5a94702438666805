//! Plays a certificate with actual numbers: every record once, to see that it shows what it says, and then what the
//! start leads to, as steps for the words. What the certificate checker of 01 does not accept is refused with 13 or 14.
use crate::certificate::{self, Certificate, List, Loss, Position};
use crate::game::Game;
use crate::model::{Edge, Side, Task};
use crate::setting::{Answer, Setting};
use crate::task::Refusal;
use crate::words;
use std::cmp::Reverse;
use std::collections::{BTreeMap, BTreeSet};

/// The explanation of a certificate of this task.
pub fn explain(task: &Task, bytes: &[u8]) -> Result<String, Refusal> {
    let Certificate { game, list } = certificate::read(task, bytes)?;
    let positions: Vec<Position> = match &list {
        List::Kept(kept) => kept.iter().map(|record| record.1).collect(),
        List::Lost(losses) => losses.iter().map(|loss| loss.position).collect(),
    };
    if positions.binary_search(&Position::start(task)).is_err() {
        return refused(0, "expected the start position among the records");
    }
    match list {
        List::Kept(kept) => {
            check_kept(task, game, &kept, &positions)?;
            Ok(words::kept(task, game, kept.len()))
        }
        List::Lost(losses) => {
            let play = Play { task, game, losses };
            play.check()?;
            Ok(words::lost(task, game, &play.steps()?))
        }
    }
}

fn refused<T>(at: usize, words: &str) -> Result<T, Refusal> {
    Err(Refusal::new(14, at, words))
}

/// Kept positions are not lost by their end marks, and whatever an attacker takes, the other can answer into a kept position.
fn check_kept(
    task: &Task,
    game: Game,
    kept: &[(usize, Position)],
    positions: &[Position],
) -> Result<(), Refusal> {
    let is_kept = |answer: &Answer| match &answer.leads {
        Ok(setting) => positions.binary_search(&setting.position()).is_ok(),
        Err(_) => false,
    };
    for (at, position) in kept {
        let setting = Setting::over(task, position);
        if game.is_lost_by(setting.end_marks(task)) {
            return refused(
                *at,
                "expected a kept position that its end marks do not lose",
            );
        }
        for (side, edge, number) in choices(task, game, &setting) {
            let answers = setting.answers(task, side, edge, number);
            if !answers.iter().any(is_kept) {
                return refused(
                    *at,
                    "expected an answer into a kept position to every attack",
                );
            }
        }
    }
    Ok(())
}

/// All that a chooser can name. One number outside the history stands for all of them.
fn choices<'a>(task: &'a Task, game: Game, setting: &Setting) -> Vec<(Side, &'a Edge, u32)> {
    let mut choices = Vec::new();
    for &side in game.attackers() {
        for (_, edge) in setting.edges(task, side) {
            let taken = |number: &u32| setting.hindrance(side, edge, *number).is_none();
            let numbers = (1..=setting.seen() + 1).filter(taken);
            choices.extend(numbers.map(|number| (side, edge, number)));
        }
    }
    choices
}

/// What happens in a setting of a lost position.
pub enum Round {
    /// It is over: these end marks lose.
    EndMarks([u8; 2]),
    Attack(Attack),
}

pub struct Attack {
    pub side: Side,
    pub edge: usize,
    pub number: u32,
    pub answers: Vec<Answer>,
}

/// A lost position in the setting in which it is met first.
pub struct Step {
    pub rounds: u32,
    pub setting: Setting,
    pub round: Round,
}

struct Play<'a> {
    task: &'a Task,
    game: Game,
    losses: Vec<Loss>,
}

impl Play<'_> {
    fn find(&self, position: &Position) -> Option<&Loss> {
        let place = self
            .losses
            .binary_search_by(|loss| loss.position.cmp(position));
        place.ok().map(|place| &self.losses[place])
    }

    /// Every record meets the published conditions.
    fn check(&self) -> Result<(), Refusal> {
        for loss in &self.losses {
            let setting = Setting::over(self.task, &loss.position);
            let is_lost = self.game.is_lost_by(setting.end_marks(self.task));
            if loss.rounds > 0 {
                self.attack(loss, &setting)?;
            } else if !is_lost || loss.attack != [0, 0, 0] {
                return refused(
                    loss.at,
                    "expected end marks that lose and no attack where rounds are 0",
                );
            }
        }
        Ok(())
    }

    /// The attack of a record, with answers that all lead to records of fewer rounds.
    fn attack(&self, loss: &Loss, setting: &Setting) -> Result<Attack, Refusal> {
        let [side, edge, case] = loss.attack;
        let side = match side {
            1 => Side::Left,
            2 => Side::Right,
            _ => return refused(loss.at, "expected side 1 or 2"),
        };
        if !self.game.attackers().contains(&side) {
            return refused(loss.at, "expected a side that attacks in this game");
        }
        let edge = usize::from(edge);
        let mut edges = setting.edges(self.task, side);
        let Some((_, taken)) = edges.find(|numbered| numbered.0 == edge) else {
            return refused(loss.at, "expected an edge that starts in this position");
        };
        let Some(number) = setting.number(side, taken, case) else {
            return refused(loss.at, "expected an id case that this edge has here");
        };
        let answers = setting.answers(self.task, side, taken, number);
        for next in answers
            .iter()
            .filter_map(|answer| answer.leads.as_ref().ok())
        {
            match self.find(&next.position()) {
                Some(listed) if listed.rounds < loss.rounds => {}
                _ => {
                    let words = "expected each answer to lead to a record of fewer rounds";
                    return refused(loss.at, words);
                }
            }
        }
        Ok(Attack {
            side,
            edge,
            number,
            answers,
        })
    }

    /// What the start leads to, each position once and the most rounds first: so an answer always leads to a later
    /// step, and the last step is an end.
    fn steps(&self) -> Result<Vec<Step>, Refusal> {
        let start = Position::start(self.task);
        let mut steps = Vec::new();
        let mut found = BTreeSet::from([start]);
        let mut waiting = BTreeMap::new();
        waiting.insert((Reverse(u32::MAX), 0), Setting::over(self.task, &start));
        while let Some((_, setting)) = waiting.pop_first() {
            let Some(loss) = self.find(&setting.position()) else {
                return refused(0, "expected a record of each position that is met");
            };
            let round = self.round(loss, &setting)?;
            for next in round.leads() {
                let position = next.position();
                if found.insert(position) {
                    let rounds = self.find(&position).map_or(0, |loss| loss.rounds);
                    waiting.insert((Reverse(rounds), found.len()), *next);
                }
            }
            steps.push(Step {
                rounds: loss.rounds,
                setting,
                round,
            });
        }
        Ok(steps)
    }

    /// A play is over once the end marks lose, even where a record has an attack.
    fn round(&self, loss: &Loss, setting: &Setting) -> Result<Round, Refusal> {
        let end_marks = setting.end_marks(self.task);
        if self.game.is_lost_by(end_marks) {
            return Ok(Round::EndMarks(end_marks));
        }
        self.attack(loss, setting).map(Round::Attack)
    }
}

impl Round {
    fn leads(&self) -> impl Iterator<Item = &Setting> {
        let answers = match self {
            Round::EndMarks(_) => &[][..],
            Round::Attack(attack) => &attack.answers,
        };
        answers
            .iter()
            .filter_map(|answer| answer.leads.as_ref().ok())
    }
}
