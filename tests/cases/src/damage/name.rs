//! Refusal 6: wrong names.

use super::{Draft, Sort};
use crate::file::{NameEntry, SESSION};
use crate::order::MOST_LEVELS;
use crate::rng::Rng;

pub const SORTS: &[Sort] = &[
    Sort::new(6, "kind 2", |draft, rng| {
        change(draft, rng, |_| true, |name, _| name.kind = 2)
    }),
    Sort::new(6, "any kind above 1", |draft, rng| {
        change(
            draft,
            rng,
            |_| true,
            |name, rng| name.kind = rng.between(2, 255) as u8,
        )
    }),
    Sort::new(6, "level n", |draft, rng| {
        let count = draft.lattice.count() as u8;
        change(draft, rng, |_| true, |name, _| name.level = count)
    }),
    Sort::new(6, "any level above n", |draft, rng| {
        let count = draft.lattice.count();
        change(
            draft,
            rng,
            |_| true,
            |name, rng| name.level = rng.between(count, 255) as u8,
        )
    }),
    Sort::new(
        6,
        "the last of all levels, which the book lacks",
        |draft, rng| {
            let lacks = draft.lattice.count() < MOST_LEVELS;
            let last = MOST_LEVELS as u8 - 1;
            change(draft, rng, |_| lacks, |name, _| name.level = last)
        },
    ),
    Sort::new(6, "the level past the last of all", |draft, rng| {
        change(
            draft,
            rng,
            |_| true,
            |name, _| name.level = MOST_LEVELS as u8,
        )
    }),
    Sort::new(6, "owner is the number of nodes", |draft, rng| {
        let count = draft.file.nodes.len() as u16;
        change(draft, rng, |_| true, |name, _| name.owner = count)
    }),
    Sort::new(6, "owner past the nodes", |draft, rng| {
        let count = draft.file.nodes.len();
        let owner = rng.between(count, usize::from(SESSION) - 1) as u16;
        change(draft, rng, |_| true, |name, _| name.owner = owner)
    }),
    Sort::new(6, "owner no declaration", |draft, rng| {
        let node = super::find(rng, &draft.file.nodes, |node| !matches!(node.kind, 2 | 7))?;
        change(draft, rng, |_| true, |name, _| name.owner = node as u16)
    }),
    Sort::new(6, "owner declares another name", |draft, rng| {
        let node = super::find(rng, &draft.file.nodes, |node| matches!(node.kind, 2 | 7))?;
        let kind = u8::from(draft.file.nodes[node].kind == 7);
        let other = |name: &NameEntry| name.kind == kind && usize::from(name.owner) != node;
        change(draft, rng, other, |name, _| name.owner = node as u16)
    }),
    Sort::new(6, "owner declares the other kind", |draft, rng| {
        change(
            draft,
            rng,
            |name| name.owner != SESSION,
            |name, _| name.kind ^= 1,
        )
    }),
];

/// Changes one to three names that fit.
fn change(
    draft: &mut Draft,
    rng: &mut Rng,
    fits: impl Fn(&NameEntry) -> bool,
    damage: impl Fn(&mut NameEntry, &mut Rng),
) -> Option<()> {
    for _ in 0..rng.between(1, 3) {
        let names = &mut draft.file.names;
        let places: Vec<usize> = (0..names.len())
            .filter(|&place| fits(&names[place]))
            .collect();
        let place = rng.pick(&places)?;
        damage(&mut names[place], rng);
        if rng.chance(2, 3) {
            break;
        }
    }
    Some(())
}
