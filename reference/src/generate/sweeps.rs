//! Proposed certificates that are made from a right one, every one of a
//! sort.

#[derive(Clone, Copy, PartialEq, Eq, Debug)]
pub enum Sweep {
    /// Cut to every length, the whole one too.
    Cuts,
    /// Every other value for every byte.
    Bytes,
}

/// Values that a byte does not have.
const OTHER_VALUES: usize = 255;

impl Sweep {
    pub const ALL: [Sweep; 2] = [Sweep::Cuts, Sweep::Bytes];

    pub fn name(self) -> &'static str {
        ["cuts", "bytes"][self as usize]
    }

    pub fn from_name(name: &str) -> Option<Sweep> {
        Sweep::ALL.into_iter().find(|s| s.name() == name)
    }

    pub fn count(self, right: &[u8]) -> usize {
        match self {
            Sweep::Cuts => right.len() + 1,
            Sweep::Bytes => right.len() * OTHER_VALUES,
        }
    }

    /// `index` is below the count.
    pub fn proposal(self, right: &[u8], index: usize) -> Vec<u8> {
        let mut bytes = right.to_vec();
        match self {
            Sweep::Cuts => bytes.truncate(index),
            Sweep::Bytes => {
                let byte = &mut bytes[index / OTHER_VALUES];
                *byte = byte.wrapping_add((index % OTHER_VALUES) as u8 + 1);
            }
        }
        bytes
    }
}
