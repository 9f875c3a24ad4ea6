//! Lists: which session signals the instrument makes present, and in which instants.

use crate::damage::{Draft, MOST_STEPS};
use crate::file::{File, NameEntry, SESSION};
use crate::rng::Rng;

/// Instant, then name.
pub type Pair = [u32; 2];

/// The whole pairs of a list.
pub fn pairs(list: &[u32]) -> Vec<Pair> {
    list.chunks_exact(2)
        .map(|pair| [pair[0], pair[1]])
        .collect()
}

/// A list of these pairs, in the order of their instants.
pub fn in_order(mut pairs: Vec<Pair>) -> Vec<u32> {
    pairs.sort_by_key(|pair| pair[0]);
    pairs.concat()
}

fn is_session_signal(name: &NameEntry) -> bool {
    name.kind == 1 && name.owner == SESSION
}

/// The names that a list may hold.
pub fn session_signals(file: &File) -> Vec<u32> {
    let names = (0..).zip(&file.names);
    names
        .filter(|(_, name)| is_session_signal(name))
        .map(|(number, _)| number)
        .collect()
}

/// The kinds of nodes that emit a signal, and that test one.
const EMITS: &[u8] = &[6];
const TESTS: &[u8] = &[8, 9];

/// The session signals that some node of these kinds names.
fn named_by(file: &File, kinds: &[u8]) -> Vec<u32> {
    let names = |name: u32| {
        let mut nodes = file.nodes.iter();
        nodes.any(|node| kinds.contains(&node.kind) && u32::from(node.a) == name)
    };
    let mut signals = session_signals(file);
    signals.retain(|&name| names(name));
    signals
}

/// A list that is not refused; an empty one where the script has no session signal.
pub fn list(rng: &mut Rng, file: &File) -> Vec<u32> {
    let (tested, emitted) = (named_by(file, TESTS), named_by(file, EMITS));
    let all = session_signals(file);
    let mut list = vec![];
    let mut instant: u32 = 1;
    for place in 0..length(rng) {
        if place > 0 || rng.chance(1, 2) {
            instant = instant.saturating_add(gap(rng));
        }
        let from = match rng.below(6) {
            0..=3 => &tested,
            4 => &emitted,
            _ => &all,
        };
        list.extend(rng.pick(from).into_iter().flat_map(|name| [instant, name]));
    }
    list
}

/// How many pairs: none, a few, rarely hundreds.
fn length(rng: &mut Rng) -> usize {
    match rng.below(400) {
        0 => rng.between(200, 600),
        1..=60 => 0,
        61..=180 => rng.between(1, 3),
        181..=360 => rng.between(4, 12),
        _ => rng.between(13, 60),
    }
}

/// How many instants lie between two pairs: often none, rarely more than any run has.
fn gap(rng: &mut Rng) -> u32 {
    let instants = match rng.below(60) {
        0..=21 => 0,
        22..=38 => 1,
        39..=49 => rng.between(2, 4),
        50..=55 => rng.between(5, 40),
        56..=58 => rng.between(41, 400),
        _ => rng.between(MOST_STEPS as usize, u32::MAX as usize),
    };
    instants as u32
}

/// The instants of a gap: hundreds of thousands for a script that only waits, else hundreds or thousands.
pub fn long_gap(rng: &mut Rng, only_waits: bool) -> usize {
    match only_waits {
        true => rng.between(100_000, 900_000),
        false => rng.between(400, 3000),
    }
}

/// Moves some pair, often the first, and those after it by a long gap, and chooses a limit that is met near
/// that pair: just before its instant, in it, or after it.
pub fn add_gap(rng: &mut Rng, draft: &mut Draft, gap: usize) {
    let place = match rng.chance(1, 2) {
        true => 0,
        false => rng.below(draft.list.len() / 2),
    };
    let late = draft.list.chunks_exact_mut(2).skip(place);
    late.for_each(|pair| pair[0] = pair[0].saturating_add(gap as u32));
    let Some(&instant) = draft.list.get(2 * place) else {
        return;
    };
    let steps = match rng.below(4) {
        0 => rng.below(3),
        _ => rng.between(3, 200),
    };
    let met = instant.saturating_add(steps as u32).saturating_sub(1);
    draft.limit = met.min(MOST_STEPS);
}

#[cfg(test)]
mod tests {
    use super::*;
    use crate::{file, grow, order, tree::Script};

    fn some_file(rng: &mut Rng) -> File {
        let lattice = order::lattice(rng);
        let style = grow::Style {
            nodes: 20,
            session_names: 6,
            mixed: true,
            careless: None,
        };
        let script: Script = grow::script(rng, &lattice, style);
        file::write(&script, rng)
    }

    #[test]
    fn lists_are_right() {
        for seed in 0..2000 {
            let mut rng = Rng::new(seed);
            let file = some_file(&mut rng);
            let list = list(&mut rng, &file);
            let pairs = pairs(&list);
            assert_eq!(2 * pairs.len(), list.len());
            assert!(pairs.is_sorted_by_key(|pair| pair[0]));
            assert!(pairs.iter().all(|pair| pair[0] > 0));
            let signals = session_signals(&file);
            assert!(pairs.iter().all(|pair| signals.contains(&pair[1])));
        }
    }

    #[test]
    fn pairs_are_put_in_order() {
        let unordered = vec![[3, 1], [1, 2], [3, 0], [1, 1]];
        assert_eq!(in_order(unordered), [1, 2, 1, 1, 3, 1, 3, 0]);
    }
}
