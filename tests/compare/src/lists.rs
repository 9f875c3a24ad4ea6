//! What the list of a run brought about, for the coverage: a list that changes nothing tests nothing.

use crate::book::at_or_below;
use crate::coverage::{FLOOR, USUAL};
use crate::engine::Engine;
use crate::outcome::{outcome, Outcome};
use cases::file::File;
use cases::list::{pairs, Pair};
use cases::Case;

/// What the list of a run may show, with its floor. Gaps of hundreds of thousands of instants are slow, and
/// few.
pub const NOTES: [(&str, u64); 11] = [
    ("a pair of an instant that was entered", USUAL / 10),
    ("a pair of the last instant that was entered", FLOOR),
    ("a pair of an instant that was not entered", FLOOR),
    ("two signals in one instant that was entered", FLOOR),
    ("a pair that repeats, of an instant that was entered", FLOOR),
    ("a signal above the reader's level that was present", FLOOR),
    ("a list that changed ending, counts or lines", USUAL / 20),
    ("a list that changed the values alone", FLOOR),
    ("a change by signals above the reader's level", FLOOR),
    ("a change after 100 instants without a pair", FLOOR),
    ("a change after 100,000 instants without a pair", 10),
];

/// Which of the notes hold of a run that was not refused. The engine runs the case again with parts of its
/// list, to see what they change.
pub fn reached(
    engine: &dyn Engine,
    case: &Case,
    ran: &Outcome,
) -> Result<[bool; NOTES.len()], String> {
    let Some(file) = File::read(&case.script) else {
        return Ok([false; NOTES.len()]);
    };
    let pairs = pairs(&case.list);
    let entered: Vec<Pair> = within(&pairs, ran.instants());
    let level = |pair: &Pair| u32::from(file.names[pair[1] as usize].level);
    let low = |pair: &Pair| at_or_below(&case.book, level(pair), case.reader);
    let below: Vec<Pair> = pairs.iter().copied().filter(low).collect();
    let (gap, before_gap) = longest_gap(&entered);
    let with = |some: &[Pair]| with_list(engine, case, some);
    let without = with(&[])?;
    let after_gap = gap >= 100 && with(before_gap)? != *ran;
    let same_run = (&without.run, &without.log) == (&ran.run, &ran.log);
    let neighbours = || entered.windows(2).map(|two| (two[0], two[1]));
    Ok([
        !entered.is_empty(),
        ran.instants() > 0 && pairs.iter().any(|pair| pair[0] == ran.instants()),
        entered.len() < pairs.len(),
        neighbours().any(|(one, next)| one[0] == next[0] && one[1] != next[1]),
        neighbours().any(|(one, next)| one == next),
        !entered.iter().all(low),
        !same_run,
        same_run && without.values != ran.values,
        below.len() < pairs.len() && with(&below)? != *ran,
        after_gap,
        after_gap && gap >= 100_000,
    ])
}

/// The pairs of instants up to one.
fn within(pairs: &[Pair], last: u32) -> Vec<Pair> {
    let entered = pairs.iter().copied().filter(|pair| pair[0] <= last);
    entered.collect()
}

/// The most instants between two pairs, or before the first, and the pairs before them.
fn longest_gap(pairs: &[Pair]) -> (u32, &[Pair]) {
    let instant = |place: usize| place.checked_sub(1).map_or(0, |before| pairs[before][0]);
    let gaps = (0..pairs.len()).map(|place| (pairs[place][0] - instant(place), place));
    let (gap, place) = gaps.max().unwrap_or_default();
    (gap, &pairs[..place])
}

fn with_list(engine: &dyn Engine, case: &Case, pairs: &[Pair]) -> Result<Outcome, String> {
    let other = Case {
        list: pairs.concat(),
        ..case.clone()
    };
    outcome(engine, &other)
}

#[cfg(test)]
mod tests {
    use super::*;

    #[test]
    fn the_longest_gap_of_a_list() {
        assert_eq!(longest_gap(&[]), (0, &[][..]));
        let pairs = [[3, 0], [3, 1], [9, 0], [11, 0]];
        assert_eq!(longest_gap(&pairs), (6, &pairs[..2]));
        assert_eq!(longest_gap(&pairs[2..]), (9, &[][..]));
    }
}
