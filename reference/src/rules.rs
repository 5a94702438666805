//! The rules of a game, as a value. All that a game can have for itself
//! stands here: who attacks, which end marks lose, what the verdicts are.
//! Positions, replies and rounds are the same in every game.

use crate::model::{Side, Task, Verdict};

#[derive(Clone, Copy, PartialEq, Eq, Debug)]
pub struct Rules {
    pub name: &'static str,
    /// The sides that attack, by their numbers.
    pub attackers: &'static [Side],
    /// The left and the right end mark of what is lost in 0 rounds.
    pub losing_marks: &'static [(u8, u8)],
    /// The verdict where the start is never lost.
    pub kept: Verdict,
    /// The verdict where it is lost.
    pub lost: Verdict,
}

impl Rules {
    /// Either side attacks.
    pub const TWO_WAY: Rules = Rules {
        name: "two-way",
        attackers: &Side::BOTH,
        losing_marks: &[(0, 1), (1, 0)],
        kept: Verdict::Equal,
        lost: Verdict::Differ,
    };

    /// Only the left side attacks, and only a left end mark 1 against a right
    /// one 0 loses.
    pub const ONE_WAY: Rules = Rules {
        name: "one-way",
        attackers: &[Side::Left],
        losing_marks: &[(1, 0)],
        kept: Verdict::Follows,
        lost: Verdict::FallsShort,
    };

    pub const ALL: [Rules; 2] = [Rules::TWO_WAY, Rules::ONE_WAY];

    /// The other one of the two games.
    pub fn other(&self) -> Rules {
        if *self == Rules::TWO_WAY {
            Rules::ONE_WAY
        } else {
            Rules::TWO_WAY
        }
    }

    /// What a program calls doing something in this game: `check` where both
    /// sides attack, and otherwise `check-one-way`.
    pub fn word_for(&self, what: &str) -> String {
        match *self == Rules::TWO_WAY {
            true => what.to_string(),
            false => format!("{what}-{}", self.name),
        }
    }

    pub fn attacks(&self, side: Side) -> bool {
        self.attackers.contains(&side)
    }

    /// Whether these two states are lost in 0 rounds.
    pub fn loses_at_once(&self, task: &Task, left: u8, right: u8) -> bool {
        let marks = (task.left.end_mark(left), task.right.end_mark(right));
        self.losing_marks.contains(&marks)
    }

    pub fn verdict(&self, kept: bool) -> Verdict {
        if kept {
            self.kept
        } else {
            self.lost
        }
    }

    /// The verdict that a certificate's kind stands for in this game.
    pub fn verdict_of_kind(&self, kind: u8) -> Option<Verdict> {
        [self.kept, self.lost].into_iter().find(|v| v.kind() == kind)
    }
}
