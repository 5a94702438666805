//! Reference implementation of the reader comparer, written from the papers
//! alone. See README.md for the programs and READINGS.md for the
//! places where the papers left a choice.

pub mod baseline;
pub mod certificate;
pub mod check;
pub mod compare;
pub mod frames;
pub mod game;
pub mod generate;
pub mod lent;
pub mod model;
pub mod numbers;
pub mod partner;
pub mod random;
pub mod rules;
pub mod runner;
pub mod tally;
pub mod task;
pub mod text;
pub mod ways;
