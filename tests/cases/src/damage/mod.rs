//! Damage: for every refusal and each sort of fault within it, one way to bring it about.

mod book;
mod call;
mod expression;
mod layout;
mod list;
mod name;
mod node;
mod scope;

use crate::file::{Entry, File};
use crate::order::Lattice;
use crate::rng::Rng;
use crate::Case;

pub use call::MOST_STEPS;
pub use layout::{changed_bytes, random_bytes};

/// A case before its script is written out.
#[derive(Clone, Debug)]
pub struct Draft {
    pub lattice: Lattice,
    pub book: Vec<u8>,
    pub file: File,
    /// The script's bytes, once they are no longer those of `file`.
    pub script: Option<Vec<u8>>,
    pub reader: u32,
    pub values: Vec<i32>,
    pub limit: u32,
    pub list: Vec<u32>,
    pub log: usize,
}

impl Draft {
    /// The script's bytes, for damage below the level of entries.
    pub fn script_mut(&mut self) -> &mut Vec<u8> {
        self.script.get_or_insert_with(|| self.file.bytes())
    }

    pub fn finish(self) -> Case {
        Case {
            book: self.book,
            script: self.script.unwrap_or_else(|| self.file.bytes()),
            reader: self.reader,
            values: self.values,
            limit: self.limit,
            list: self.list,
            log: self.log,
        }
    }
}

/// Damages a draft; `None` if the draft has nothing to damage in this way.
type Damage = fn(&mut Draft, &mut Rng) -> Option<()>;

/// One sort of fault. The refusal is the one that it brings about by itself; a lower number may hide it.
#[derive(Clone, Copy)]
pub struct Sort {
    pub refusal: u32,
    pub says: &'static str,
    damage: Damage,
}

impl Sort {
    const fn new(refusal: u32, says: &'static str, damage: Damage) -> Sort {
        Sort {
            refusal,
            says,
            damage,
        }
    }

    pub fn apply(&self, draft: &mut Draft, rng: &mut Rng) -> Option<()> {
        (self.damage)(draft, rng)
    }
}

/// Every sort of fault, by refusal.
pub fn sorts() -> impl Iterator<Item = &'static Sort> {
    let lists: [&[Sort]; 8] = [
        book::SORTS,
        layout::SORTS,
        name::SORTS,
        expression::SORTS,
        node::SORTS,
        scope::SORTS,
        call::SORTS,
        list::SORTS,
    ];
    lists.into_iter().flatten()
}

/// The place of an entry that fits.
fn find(rng: &mut Rng, list: &[Entry], fits: impl Fn(&Entry) -> bool) -> Option<usize> {
    let places: Vec<usize> = (0..list.len())
        .filter(|&place| fits(&list[place]))
        .collect();
    rng.pick(&places)
}

/// A number other than 0.
fn not_zero(rng: &mut Rng) -> u16 {
    let number = rng.next_u64() as u16;
    match rng.chance(1, 2) {
        true => 1 << (number % 16),
        false => number.max(1),
    }
}

/// A number that none of `count` entries has: often the first such.
fn past(rng: &mut Rng, count: usize) -> usize {
    match rng.chance(1, 2) {
        true => count,
        false => rng.between(count, 65535),
    }
}
