//! The flows that a script needs.

use crate::raw;

/// The most levels of a book. They are numbered from 0.
pub const MAX_LEVELS: usize = raw::MAX_LEVELS;

/// From which levels data must be let flow to which others: what [`flows`](crate::flows()) answers.
#[derive(Clone, Copy, Debug, PartialEq, Eq, Hash)]
pub struct Flows {
    words: [u32; MAX_LEVELS],
}

impl Flows {
    pub(crate) fn new(words: [u32; MAX_LEVELS]) -> Flows {
        Flows { words }
    }

    /// Whether data must be let flow from one level to the other. Not if both are the same, or if one of them is no
    /// level of the script, whatever its number.
    pub fn needs(&self, from: u32, to: u32) -> bool {
        let word = self.words.get(from as usize).copied().unwrap_or(0);
        word.checked_shr(to).unwrap_or(0) & 1 == 1
    }

    /// The flows one by one, each as the level from which and the level to which; in the order of the first, then of
    /// the second.
    pub fn pairs(&self) -> impl Iterator<Item = (u32, u32)> + '_ {
        let levels = 0..MAX_LEVELS as u32;
        let all = levels
            .clone()
            .flat_map(move |from| levels.clone().map(move |to| (from, to)));
        all.filter(|&(from, to)| self.needs(from, to))
    }

    /// The words of the C interface: bit j of word i says that data must be let flow from level i to level j.
    pub fn words(&self) -> [u32; MAX_LEVELS] {
        self.words
    }
}
