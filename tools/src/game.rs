//! The two games (01, "Positions and rounds", and 02, ticket 1): which sides attack, and by which end marks a position is
//! lost in 0 rounds.
use crate::model::Side;

#[derive(Clone, Copy, PartialEq, Eq, Debug)]
pub enum Game {
    /// EQUAL or DIFFER.
    Equality,
    /// FOLLOWS or FALLS SHORT.
    OneWay,
}

impl Game {
    pub fn attackers(self) -> &'static [Side] {
        match self {
            Game::Equality => &Side::BOTH,
            Game::OneWay => &[Side::Left],
        }
    }

    /// Whether these end marks, the left one first, lose a position at once.
    pub fn is_lost_by(self, end_marks: [u8; 2]) -> bool {
        match self {
            Game::Equality => end_marks[0] != end_marks[1],
            Game::OneWay => end_marks == [1, 0],
        }
    }
}
