//! What the programs `tasktext` and `explain` are made of. Written from the papers ("01" and "02") alone: nothing is shared
//! with the reference or with the proved crates, so that this is one more reading of it.
pub mod certificate;
pub mod explain;
pub mod game;
pub mod model;
pub mod program;
pub mod setting;
pub mod task;
pub mod text;
mod words;
