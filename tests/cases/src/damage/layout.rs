//! Refusals 4 and 5: tails and counts.

use super::{Draft, Sort};
use crate::file::{Entry, NameEntry, MOST_EXPRESSIONS, MOST_NAMES, MOST_NODES, SESSION};
use crate::rng::Rng;

pub const SORTS: &[Sort] = &[
    Sort::new(4, "under 8 bytes", |draft, rng| {
        let bytes = draft.script_mut();
        let (kept, from_end) = (rng.below(8), rng.chance(1, 2));
        let start = if from_end {
            bytes.len().saturating_sub(kept)
        } else {
            0
        };
        *bytes = bytes[start..].iter().copied().take(kept).collect();
        Some(())
    }),
    Sort::new(4, "no mark", |draft, rng| {
        let change = super::not_zero(rng);
        change_tail(draft, 3, |mark| mark ^ change)
    }),
    Sort::new(4, "first offset above the second", |draft, rng| {
        let over = 4 * rng.between(1, 6) as u16;
        let second = tail_word(draft, 1)?;
        change_tail(draft, 0, |_| second.saturating_add(over))
    }),
    Sort::new(4, "second offset above the third", |draft, rng| {
        let over = 8 * rng.between(1, 3) as u16;
        let third = tail_word(draft, 2)?;
        change_tail(draft, 1, |_| third.saturating_add(over))
    }),
    Sort::new(4, "first offset cuts a name", |draft, rng| {
        let cut = rng.between(1, 3) as u16;
        change_tail(draft, 0, |first| first ^ cut)?;
        // Keep the expressions whole, so that the names alone are cut.
        change_tail(draft, 1, |second| second ^ cut)
    }),
    Sort::new(4, "first offset cuts an expression", |draft, _| {
        change_tail(draft, 0, |first| first.wrapping_add(4))
    }),
    Sort::new(4, "second offset cuts a node", |draft, rng| {
        let cut = rng.between(1, 7) as u16;
        change_tail(draft, 1, |second| second.saturating_sub(cut))
    }),
    Sort::new(4, "third offset misses the tail", |draft, rng| {
        let away = rng.between(1, 3) as u16 * 8;
        let further = rng.chance(1, 2);
        change_tail(draft, 2, |third| match further {
            true => third.saturating_add(away),
            false => third.saturating_sub(away),
        })
    }),
    Sort::new(4, "bytes after the tail", |draft, rng| {
        let more = rng.between(1, 9);
        draft
            .script_mut()
            .extend((0..more).map(|_| rng.next_u64() as u8));
        Some(())
    }),
    Sort::new(
        4,
        "bytes before the tail that it does not count",
        |draft, rng| {
            let bytes = draft.script_mut();
            let end = bytes.len().checked_sub(8)?;
            let more = if rng.chance(1, 2) {
                8
            } else {
                rng.between(1, 9)
            };
            bytes.splice(end..end, vec![0; more]);
            Some(())
        },
    ),
    Sort::new(4, "offsets that do not fit", |draft, rng| {
        // Rarely, since such a file is long: the lists end past 65,535.
        if !rng.chance(1, 3) {
            return None;
        }
        let missing = 65_536 - draft.file.bytes().len().min(65_536);
        let nodes = missing / 8 + rng.between(1, 3);
        draft.file.nodes.splice(0..0, vec![Entry::default(); nodes]);
        Some(())
    }),
    Sort::new(5, "65 names", |draft, _| fill_names(draft, MOST_NAMES + 1)),
    Sort::new(5, "many names", |draft, rng| {
        fill_names(draft, rng.between(66, 300))
    }),
    Sort::new(5, "257 expressions", |draft, _| {
        fill_expressions(draft, MOST_EXPRESSIONS + 1)
    }),
    Sort::new(5, "many expressions", |draft, rng| {
        fill_expressions(draft, rng.between(258, 600))
    }),
    Sort::new(5, "257 nodes", |draft, _| fill_nodes(draft, MOST_NODES + 1)),
    Sort::new(5, "many nodes", |draft, rng| {
        fill_nodes(draft, rng.between(258, 600))
    }),
    Sort::new(5, "as many nodes as the offsets allow", |draft, rng| {
        // Rarely, since such a file is long.
        if !rng.chance(1, 3) {
            return None;
        }
        let first = 4 * draft.file.names.len() + 8 * draft.file.expressions.len();
        fill_nodes(draft, (65_535 - first.min(65_535)) / 8)
    }),
    Sort::new(5, "no node", |draft, _| {
        draft.file.nodes.clear();
        Some(())
    }),
];

/// The place of a word of the tail.
fn tail_place(draft: &mut Draft, word: usize) -> Option<usize> {
    draft
        .script_mut()
        .len()
        .checked_sub(8)
        .map(|tail| tail + 2 * word)
}

fn tail_word(draft: &mut Draft, word: usize) -> Option<u16> {
    let place = tail_place(draft, word)?;
    let bytes = draft.script_mut();
    Some(u16::from_be_bytes([bytes[place], bytes[place + 1]]))
}

fn change_tail(draft: &mut Draft, word: usize, change: impl Fn(u16) -> u16) -> Option<()> {
    let new = change(tail_word(draft, word)?);
    let place = tail_place(draft, word)?;
    draft.script_mut()[place..place + 2].copy_from_slice(&new.to_be_bytes());
    Some(())
}

fn fill_names(draft: &mut Draft, count: usize) -> Option<()> {
    let free = NameEntry {
        owner: SESSION,
        ..NameEntry::default()
    };
    draft.file.names.resize(count, free);
    draft.values.resize(count, 0);
    Some(())
}

/// Adds negations of the last expression, which leaves all but the last one used.
fn fill_expressions(draft: &mut Draft, count: usize) -> Option<()> {
    for next in draft.file.expressions.len()..count {
        draft.file.expressions.push(Entry {
            kind: 8,
            a: (next as u16).saturating_sub(1),
            ..Entry::default()
        });
    }
    Some(())
}

/// Adds loops around the script; only the count is meant to be at fault.
fn fill_nodes(draft: &mut Draft, count: usize) -> Option<()> {
    for next in draft.file.nodes.len()..count {
        draft.file.nodes.push(Entry {
            kind: 4,
            b: (next as u16).saturating_sub(1),
            ..Entry::default()
        });
    }
    Some(())
}

/// One to four bits of the script turned over, or bytes of it replaced, cut out or doubled.
pub fn changed_bytes(draft: &mut Draft, rng: &mut Rng) {
    let bytes = draft.script_mut();
    for _ in 0..rng.between(1, 4) {
        let place = rng.below(bytes.len());
        match rng.below(8) {
            0..=3 => bytes
                .iter_mut()
                .skip(place)
                .take(1)
                .for_each(|b| *b ^= 1 << rng.below(8)),
            4..=5 => bytes
                .iter_mut()
                .skip(place)
                .take(1)
                .for_each(|b| *b = rng.below(12) as u8),
            6 => bytes.truncate(place),
            _ => {
                let piece: Vec<u8> = bytes.iter().skip(place).take(8).copied().collect();
                bytes.splice(place..place, piece);
            }
        }
    }
}

/// Plain random bytes, sometimes with a right tail.
pub fn random_bytes(draft: &mut Draft, rng: &mut Rng) {
    let byte = |rng: &mut Rng| if rng.chance(2, 3) { rng.below(12) } else { rng.below(256) } as u8;
    if rng.chance(1, 2) {
        let length = rng.below(80);
        draft.script = Some((0..length).map(|_| byte(rng)).collect());
        return;
    }
    let (names, parts) = (4 * rng.below(5), 8 * rng.below(8));
    let mut bytes: Vec<u8> = (0..names + parts).map(|_| byte(rng)).collect();
    let second = names + 8 * rng.below(parts / 8 + 1);
    for word in [names, second, bytes.len(), 0x5354] {
        bytes.extend((word as u16).to_be_bytes());
    }
    draft.script = Some(bytes);
}
