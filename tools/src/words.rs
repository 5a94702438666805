//! An explanation in words, for people who do not read records.
use crate::certificate::Position;
use crate::explain::{Attack, Round, Step};
use crate::game::Game;
use crate::model::{EdgeKind, Side, Task, MOST_SEEN};
use crate::setting::{Answer, Hindrance, Reader, Setting};
use crate::text;
use std::collections::BTreeMap;

/// What it means that so many positions were kept.
pub fn kept(task: &Task, game: Game, count: usize) -> String {
    let kept = counted(count, "position was kept", "positions were kept");
    let seen = seen_before(task.history);
    match game {
        Game::Equality => format!(
            "EQUAL: the readers cannot be told apart, and {kept}.\n{seen}.\n{}\n",
            answered("one reader", "the other")
        ),
        Game::OneWay => format!(
            "FOLLOWS: right takes all that left takes, and {kept}.\n{seen}.\n{}\n\
             Where left has end mark 1 in a kept position, right has it too.\n",
            answered("left", "right")
        ),
    }
}

/// The history at the start.
fn seen_before(size: u8) -> String {
    let seen = match size {
        0 => "No number was".into(),
        MOST_SEEN => format!("{size} numbers or more were"),
        _ => format!(
            "Exactly {}",
            counted(size.into(), "number was", "numbers were")
        ),
    };
    format!("{seen} seen before the start")
}

fn answered(attacker: &str, other: &str) -> String {
    format!(
        "Whatever field and number {attacker} takes from a kept position, {other} can take them too, so that a kept \
         position follows."
    )
}

/// The steps of an attack, the start first.
pub fn lost(task: &Task, game: Game, steps: &[Step]) -> String {
    let places: BTreeMap<Position, usize> = (0..)
        .zip(steps)
        .map(|(place, step)| (step.setting.position(), place))
        .collect();
    let story = Story {
        task,
        steps,
        places,
    };
    let mut text = opening(task, game, steps);
    for (place, step) in steps.iter().enumerate() {
        text += &format!("\nStep {}, {}:\n", place + 1, to_go(step.rounds));
        for line in story.step(step) {
            text += &format!("  {line}\n");
        }
    }
    text
}

fn opening(task: &Task, game: Game, steps: &[Step]) -> String {
    let Some(first) = steps.first() else {
        return String::new();
    };
    let within = match first.rounds {
        0 => "at once".into(),
        rounds => format!(
            "within {}, whatever is answered",
            counted(rounds as usize, "round", "rounds")
        ),
    };
    let claim = match game {
        Game::Equality => "DIFFER: the readers can be told apart",
        Game::OneWay => "FALLS SHORT: right falls short of left, as left can show",
    };
    let here = match task.history {
        0 => String::new(),
        1 => ", here 1".into(),
        size => format!(", here 1 to {size}"),
    };
    format!("{claim} {within}.\n{}{here}.\n", seen_before(task.history))
}

fn to_go(rounds: u32) -> String {
    match rounds {
        0 => "no round to go".into(),
        _ => format!(
            "at most {} to go",
            counted(rounds as usize, "round", "rounds")
        ),
    }
}

fn counted(count: usize, one: &str, more: &str) -> String {
    let noun = if count == 1 { one } else { more };
    format!("{count} {noun}")
}

/// A side's name at the beginning of a sentence.
fn capital(side: Side) -> &'static str {
    match side {
        Side::Left => "Left",
        Side::Right => "Right",
    }
}

struct Story<'a> {
    task: &'a Task,
    steps: &'a [Step],
    /// The place of each position in the steps.
    places: BTreeMap<Position, usize>,
}

impl Story<'_> {
    fn step(&self, step: &Step) -> Vec<String> {
        let mut lines = Vec::new();
        for side in Side::BOTH {
            lines.push(reader(side, step.setting.reader(side)));
        }
        match &step.round {
            Round::EndMarks([left, right]) => lines.push(format!(
                "The end: left's state {} has end mark {left} and right's state {} has end mark {right}.",
                step.setting.reader(Side::Left).state,
                step.setting.reader(Side::Right).state
            )),
            Round::Attack(attack) => lines.extend(self.round(&step.setting, attack)),
        }
        lines
    }

    fn round(&self, setting: &Setting, attack: &Attack) -> Vec<String> {
        let (side, number) = (attack.side, attack.number);
        let tag = self.task.model(side).edges[attack.edge].tag;
        let mut lines = vec![format!(
            "{} takes a field with tag {tag} and number {number}, {}, by its {}.",
            capital(side),
            origin(setting, side, number),
            self.edge(side, attack.edge)
        )];
        let other = side.other();
        for answer in &attack.answers {
            lines.push(self.answer(other, number, answer));
        }
        if attack.answers.is_empty() {
            let state = setting.reader(other).state;
            let name = capital(other);
            lines.push(format!(
                "{name} has no edge with tag {tag} from state {state}."
            ));
        }
        if attack.answers.iter().all(|answer| answer.leads.is_err()) {
            lines.push(format!("The end: {} has no answer.", other.name()));
        }
        lines
    }

    fn answer(&self, side: Side, number: u32, answer: &Answer) -> String {
        let (name, edge) = (capital(side), self.edge(side, answer.edge));
        match &answer.leads {
            Ok(next) => format!(
                "{name} can answer by its {edge}: go to {}.",
                self.go_to(next)
            ),
            Err(hindrance) => format!(
                "{name} cannot answer by its {edge}: {}.",
                self.why(side, number, answer.edge, *hindrance)
            ),
        }
    }

    /// The step that explains a setting. It shows the numbers of whoever met the position first.
    fn go_to(&self, setting: &Setting) -> String {
        match self.places.get(&setting.position()) {
            Some(&place) if self.steps[place].setting == *setting => format!("step {}", place + 1),
            Some(&place) => format!("step {}, which is the same with other numbers", place + 1),
            None => "a position that was not explained".into(),
        }
    }

    fn edge(&self, side: Side, place: usize) -> String {
        let edge = &self.task.model(side).edges[place];
        format!("edge {place} ({})", text::edge_words(edge))
    }

    fn why(&self, side: Side, number: u32, place: usize, hindrance: Hindrance) -> String {
        let edge = &self.task.model(side).edges[place];
        let register = edge.register;
        let rule = match edge.kind {
            EdgeKind::Known => format!("it takes only the number in register {register}"),
            EdgeKind::LocallyFresh => {
                format!("it takes only a number that {} does not hold", side.name())
            }
            EdgeKind::GloballyFresh => "it takes only a brand new number".into(),
        };
        let fact = match hindrance {
            Hindrance::RegisterHolds(Some(held)) => format!("which is {held}"),
            Hindrance::RegisterHolds(None) => "which holds none".into(),
            Hindrance::HeldIn(held) => format!("and {number} is in register {held}"),
            Hindrance::Seen => format!("and {number} was seen before"),
        };
        format!("{rule}, {fact}")
    }
}

fn reader(side: Side, reader: &Reader) -> String {
    let held: Vec<String> = reader
        .held()
        .map(|(register, number)| format!("{number} in register {register}"))
        .collect();
    let held = match held.split_last() {
        None => "nothing".into(),
        Some((last, [])) => last.clone(),
        Some((last, rest)) => format!("{} and {last}", rest.join(", ")),
    };
    format!(
        "{} is in state {} and holds {held}.",
        capital(side),
        reader.state
    )
}

/// Where a taken number stands before the round.
fn origin(setting: &Setting, side: Side, number: u32) -> String {
    let held = |side: Side| setting.holds(side, number);
    match (held(side), held(side.other())) {
        (true, true) => "which both readers hold".into(),
        (true, false) => format!("which only {} holds", side.name()),
        (false, true) => format!("which only {} holds", side.other().name()),
        (false, false) if number <= setting.seen() => {
            "which was seen before and neither reader holds".into()
        }
        (false, false) => "which is brand new".into(),
    }
}
