//! Two lists for demand 3: they differ, and agree for a reader.

use cases::file::{File, NameEntry};
use cases::list::{in_order, pairs, session_signals, Pair};
use cases::Rng;
use std::collections::BTreeSet;

/// Lists that are not refused. They agree when made: they differ in sealed signals, in the order of pairs
/// within an instant, in repeats and so in length.
pub struct TwoLists {
    first: Vec<Pair>,
    second: Vec<Pair>,
    /// The names that the reader may see.
    seen: BTreeSet<u32>,
}

/// The most pairs of sealed signals that only one of the lists has.
const MOST_SEALED: usize = 6;

impl TwoLists {
    pub fn new(rng: &mut Rng, file: &File, is_low: &dyn Fn(&NameEntry) -> bool) -> TwoLists {
        let names = (0..).zip(&file.names);
        let low = names.filter(|(_, name)| is_low(name));
        let mut lists = TwoLists {
            first: pairs(&cases::list::list(rng, file)),
            second: vec![],
            seen: low.map(|(number, _)| number).collect(),
        };
        lists.second = lists.other(rng, &session_signals(file));
        if rng.chance(1, 2) {
            std::mem::swap(&mut lists.first, &mut lists.second);
        }
        lists
    }

    /// The seen pairs of the first list, each once or twice; some of its sealed pairs, and others.
    fn other(&self, rng: &mut Rng, signals: &[u32]) -> Vec<Pair> {
        let mut other = vec![];
        for pair in self.seen_pairs(&self.first) {
            other.extend(std::iter::repeat_n(pair, rng.between(1, 2)));
        }
        let is_sealed = |name: &u32| !self.seen.contains(name);
        let sealed_pairs = self.first.iter().filter(|pair| is_sealed(&pair[1]));
        other.extend(sealed_pairs.filter(|_| rng.chance(1, 2)));
        let sealed: Vec<u32> = signals.iter().copied().filter(is_sealed).collect();
        for _ in 0..rng.below(MOST_SEALED) {
            let near = rng.pick(&self.first).map(|pair| pair[0]);
            let instant = near.filter(|_| rng.chance(1, 2));
            let instant = instant.unwrap_or(rng.between(1, 9) as u32);
            other.extend(rng.pick(&sealed).map(|name| [instant, name]));
        }
        rng.shuffle(&mut other);
        other
    }

    fn seen_pairs(&self, list: &[Pair]) -> BTreeSet<Pair> {
        let pairs = list.iter().copied();
        pairs.filter(|pair| self.seen.contains(&pair[1])).collect()
    }

    /// 'In every instant they name the same signals at or below the reader's level.'
    pub fn agree(&self) -> bool {
        self.seen_pairs(&self.first) == self.seen_pairs(&self.second)
    }

    /// Takes a pair that the reader may see out of the second list, if there is one.
    pub fn leave_out_seen(&mut self, rng: &mut Rng) {
        let seen: Vec<Pair> = self.seen_pairs(&self.second).into_iter().collect();
        let left_out = rng.pick(&seen);
        self.second.retain(|pair| Some(*pair) != left_out);
    }

    /// The lists as they are handed to a run.
    pub fn words(self) -> [Vec<u32>; 2] {
        [self.first, self.second].map(in_order)
    }
}

#[cfg(test)]
mod tests {
    use super::*;

    fn some_lists(seed: u64) -> TwoLists {
        let mut rng = Rng::new(seed);
        let case = cases::accepted_leaning(&mut rng);
        let file = File::read(&case.script).expect("a right tail");
        TwoLists::new(&mut rng, &file, &|name| name.level == 0)
    }

    /// Of some hundred pairs of lists, how many have a property.
    fn count(has: impl Fn(TwoLists) -> bool) -> usize {
        (0..500).filter(|&seed| has(some_lists(seed))).count()
    }

    fn in_order_of_instants(lists: TwoLists) -> [Vec<Pair>; 2] {
        lists.words().map(|words| pairs(&words))
    }

    #[test]
    fn lists_agree_and_differ() {
        assert_eq!(count(|lists| lists.agree()), 500);
        let differ = |lists: TwoLists| {
            let [first, second] = lists.words();
            first != second
        };
        assert!(count(differ) > 200);
        let in_length = |lists: TwoLists| lists.first.len() != lists.second.len();
        assert!(count(in_length) > 100);
        // The same pairs, with and without repeats, in another order.
        let in_order_alone = |lists: TwoLists| {
            let [first, second] = in_order_of_instants(lists);
            let sets: [BTreeSet<Pair>; 2] =
                [&first, &second].map(|list| list.iter().copied().collect());
            sets[0] == sets[1] && first != second
        };
        assert!(count(in_order_alone) > 10);
    }

    #[test]
    fn a_seen_pair_that_is_left_out_is_noticed() {
        let disagrees = |mut lists: TwoLists| {
            lists.leave_out_seen(&mut Rng::new(1));
            !lists.agree()
        };
        assert!(count(disagrees) > 100);
    }
}
