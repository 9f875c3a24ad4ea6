//! Refusal 15: wrong lists.

use super::{Draft, Sort};
use crate::file::{NameEntry, SESSION};
use crate::list::{session_signals, Pair};
use crate::rng::Rng;

pub const SORTS: &[Sort] = &[
    Sort::new(15, "instant 0 in the first pair", |draft, rng| {
        let pair = [0, right_name(draft, rng)];
        insert(draft, 0, pair)
    }),
    Sort::new(15, "instant 0 anywhere", |draft, rng| {
        let place = some_place(draft, rng);
        draft.list[2 * place] = 0;
        Some(())
    }),
    Sort::new(15, "instants that fall by one", |draft, rng| {
        fall(draft, rng, |_, before| before - 1)
    }),
    Sort::new(15, "instants that fall", |draft, rng| {
        fall(draft, rng, |rng, before| {
            rng.between(1, before as usize - 1) as u32
        })
    }),
    Sort::new(15, "session register", |draft, rng| {
        list_name(draft, rng, |name| name.kind == 0 && name.owner == SESSION)
    }),
    Sort::new(15, "owned signal", |draft, rng| {
        list_name(draft, rng, |name| name.kind == 1 && name.owner != SESSION)
    }),
    Sort::new(15, "owned register", |draft, rng| {
        list_name(draft, rng, |name| name.kind == 0 && name.owner != SESSION)
    }),
    Sort::new(15, "name past the names", |draft, rng| {
        let name = super::past(rng, draft.file.names.len()) as u32;
        set_name(draft, rng, name)
    }),
    Sort::new(15, "greatest name", |draft, rng| {
        set_name(draft, rng, u32::MAX)
    }),
    Sort::new(15, "name whose low bits are a signal", |draft, rng| {
        let high = [64, 256, 65_536, 1 << 31][rng.below(4)];
        let name = right_name(draft, rng) | high;
        set_name(draft, rng, name)
    }),
    Sort::new(15, "half a pair at the end", |draft, rng| {
        let word = rng.below(500) as u32;
        half_pair(draft, word)
    }),
    Sort::new(15, "half a pair that would be right", |draft, _| {
        let instant = last_instant(draft);
        half_pair(draft, instant)
    }),
    Sort::new(15, "half a pair and nothing else", |draft, rng| {
        draft.list = vec![rng.below(4) as u32];
        Some(())
    }),
    Sort::new(15, "several pairs at fault", |draft, rng| {
        let mut applied = None;
        for _ in 0..rng.between(2, 4) {
            let other = &SORTS[rng.below(SINGLE_SORTS)];
            applied = other.apply(draft, rng).or(applied);
        }
        applied
    }),
    Sort::new(15, "fault in an instant past the limit", |draft, rng| {
        let instant = last_instant(draft).max(draft.limit).saturating_add(2);
        let name = right_name(draft, rng);
        let wrong = match rng.chance(1, 2) {
            true => [instant - 1, name],
            false => [instant, name | 64],
        };
        draft.list.extend([instant, name]);
        draft.list.extend(wrong);
        Some(())
    }),
    Sort::new(15, "fault late in a long list", |draft, rng| {
        let pair = [last_instant(draft), right_name(draft, rng)];
        let repeats = rng.between(100, 700);
        draft
            .list
            .extend(std::iter::repeat_n(pair, repeats).flatten());
        let wrong = if rng.chance(1, 2) { u32::MAX } else { 0 };
        draft.list.extend([wrong, u32::MAX]);
        Some(())
    }),
    Sort::new(15, "any words", |draft, rng| {
        let words = rng.between(1, 12);
        let any = |rng: &mut Rng| match rng.below(6) {
            0 => rng.next_u64() as u32,
            _ => rng.below(8) as u32,
        };
        draft.list = (0..words).map(|_| any(rng)).collect();
        Some(())
    }),
];

/// How many of the sorts, the first, can be put into one list together.
const SINGLE_SORTS: usize = 11;

/// A session signal; name 0 where there is none, which is wrong by itself.
fn right_name(draft: &Draft, rng: &mut Rng) -> u32 {
    rng.pick(&session_signals(&draft.file)).unwrap_or(0)
}

/// The last instant of the list, 1 where it is empty: what a further pair may name.
fn last_instant(draft: &Draft) -> u32 {
    let last = draft.list.chunks(2).last().map(|pair| pair[0]);
    last.unwrap_or(1).max(1)
}

fn insert(draft: &mut Draft, place: usize, pair: Pair) -> Option<()> {
    draft.list.splice(2 * place..2 * place, pair);
    Some(())
}

/// The place of a whole pair; the list gets one if it has none.
fn some_place(draft: &mut Draft, rng: &mut Rng) -> usize {
    if draft.list.len() < 2 {
        draft.list = vec![last_instant(draft), right_name(draft, rng)];
    }
    rng.below(draft.list.len() / 2)
}

fn set_name(draft: &mut Draft, rng: &mut Rng, name: u32) -> Option<()> {
    let place = some_place(draft, rng);
    draft.list[2 * place + 1] = name;
    Some(())
}

/// Names in some pair a name of the script that fits.
fn list_name(draft: &mut Draft, rng: &mut Rng, fits: impl Fn(&NameEntry) -> bool) -> Option<()> {
    let names = (0..).zip(&draft.file.names);
    let wrong: Vec<u32> = names
        .filter(|(_, name)| fits(name))
        .map(|(number, _)| number)
        .collect();
    let name = rng.pick(&wrong)?;
    set_name(draft, rng, name)
}

/// Puts a pair behind some pair, with an instant below that one's and above 0.
fn fall(draft: &mut Draft, rng: &mut Rng, below: impl Fn(&mut Rng, u32) -> u32) -> Option<()> {
    let place = some_place(draft, rng);
    // One instant later, so that there is one below that is not 0.
    let late = draft.list.chunks_mut(2).skip(place);
    late.for_each(|pair| pair[0] = pair[0].saturating_add(1));
    let before = draft.list[2 * place].max(2);
    draft.list[2 * place] = before;
    let pair = [below(rng, before), right_name(draft, rng)];
    insert(draft, place + 1, pair)
}

/// Puts half a pair at the end of a list of whole pairs.
fn half_pair(draft: &mut Draft, instant: u32) -> Option<()> {
    if draft.list.len().is_multiple_of(2) {
        draft.list.push(instant);
    }
    Some(())
}
