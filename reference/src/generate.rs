//! The seeded generator. Item `index` of a seed depends on nothing else.

pub mod blanks;
pub mod chains;
pub mod covers;
pub mod damage;
pub mod doubles;
pub mod families;
pub mod guesses;
pub mod histories;
pub mod models;
pub mod near;
pub mod overwrites;
pub mod proposals;
pub mod questions;
pub mod quota;
pub mod sweeps;

use crate::model::Task;
use crate::random::Random;
use crate::task;

#[derive(Clone, Copy, PartialEq, Eq, PartialOrd, Ord, Debug)]
pub enum ItemKind {
    /// Two unrelated small models.
    Small,
    /// A model and a renamed, often altered copy.
    Near,
    /// Differences that show only after many rounds.
    Chain,
    /// Readers that take every number, with unlike register sets.
    Cover,
    /// A guess about a position that has to be taken back.
    Guess,
    /// Registers that are overwritten and then looked at.
    Overwrite,
    /// Many positions.
    Reach,
    /// Small histories that matter.
    Blank,
    /// A byte string that is usually turned back.
    Damaged,
    /// Many of the positions that the task could have. Not in the mix.
    Dense,
}

impl ItemKind {
    pub const ALL: [ItemKind; 10] = [
        ItemKind::Small,
        ItemKind::Near,
        ItemKind::Chain,
        ItemKind::Cover,
        ItemKind::Guess,
        ItemKind::Overwrite,
        ItemKind::Reach,
        ItemKind::Blank,
        ItemKind::Damaged,
        ItemKind::Dense,
    ];

    pub fn name(self) -> &'static str {
        match self {
            ItemKind::Small => "small",
            ItemKind::Near => "near",
            ItemKind::Chain => "chain",
            ItemKind::Cover => "cover",
            ItemKind::Guess => "guess",
            ItemKind::Overwrite => "overwrite",
            ItemKind::Reach => "reach",
            ItemKind::Blank => "blank",
            ItemKind::Damaged => "damaged",
            ItemKind::Dense => "dense",
        }
    }

    pub fn from_name(name: &str) -> Option<ItemKind> {
        ItemKind::ALL.into_iter().find(|k| k.name() == name)
    }
}

#[derive(Clone, Debug)]
pub struct Item {
    pub kind: ItemKind,
    pub bytes: Vec<u8>,
}

/// How often each kind of item is made, in parts of 100.
const MIX: [(usize, ItemKind); 9] = [
    (6, ItemKind::Small),
    (24, ItemKind::Near),
    (13, ItemKind::Chain),
    (14, ItemKind::Cover),
    (4, ItemKind::Guess),
    (5, ItemKind::Overwrite),
    (4, ItemKind::Reach),
    (6, ItemKind::Blank),
    (24, ItemKind::Damaged),
];

/// Kinds that make tasks which are not turned back by the reader.
const VALID_MIX: [(usize, ItemKind); 8] =
    [MIX[0], MIX[1], MIX[2], MIX[3], MIX[4], MIX[5], MIX[6], MIX[7]];

fn task_of_kind(random: &mut Random, kind: ItemKind) -> Task {
    let task = match kind {
        ItemKind::Blank => return blanks::blank_pair(random),
        ItemKind::Small | ItemKind::Damaged => near::unrelated(random),
        ItemKind::Near => near::near_pair(random),
        ItemKind::Chain => chains::chain_pair(random),
        ItemKind::Cover => covers::cover_pair(random),
        ItemKind::Guess => guesses::guess_pair(random),
        ItemKind::Overwrite => overwrites::overwrite_pair(random),
        ItemKind::Reach => covers::reach_pair(random),
        ItemKind::Dense => covers::dense_pair(random),
    };
    let writes_all = matches!(kind, ItemKind::Reach | ItemKind::Dense);
    let only_large = writes_all && task.left.start_set().len() > 2;
    histories::with_history(random, task, only_large)
}

pub fn item_of_kind(seed: u64, index: u64, kind: ItemKind) -> Item {
    let mut random = Random::for_item(seed, index);
    make(&mut random, kind)
}

fn make(random: &mut Random, kind: ItemKind) -> Item {
    let bytes = match kind {
        ItemKind::Damaged => {
            let base = valid_task(random);
            damage::damaged(random, &base)
        }
        _ => {
            let task = task_of_kind(random, kind);
            task::write(&with_doubles(random, kind, task))
        }
    };
    Item { kind, bytes }
}

/// Half of the chains have doubled edges. Nothing is drawn behind this step,
/// so all other items are as they would be without it; damaged ones too,
/// which have no doubles.
fn with_doubles(random: &mut Random, kind: ItemKind, task: Task) -> Task {
    match kind == ItemKind::Chain && random.chance(50) {
        true => doubles::doubled(task),
        false => task,
    }
}

pub fn item(seed: u64, index: u64) -> Item {
    let mut random = Random::for_item(seed, index);
    let kind = random.weighted(&MIX);
    make(&mut random, kind)
}

/// A task that the reader accepts.
pub fn valid_task(random: &mut Random) -> Task {
    let kind = random.weighted(&VALID_MIX);
    task_of_kind(random, kind)
}
