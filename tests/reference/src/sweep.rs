//! The sweep (02 (d)): 'find the common upper and lower level of each pair in one
//! sweep over the pairs i < j, with the same answers and the same place for
//! refusal 3'.

use crate::fault::{Fault, Rules};
use crate::order::{Level, LevelSets, Order, MOST_LEVELS};

/// A level for every two levels.
pub type Table = [[u8; MOST_LEVELS]; MOST_LEVELS];

/// Two levels i < j.
type Pair = (Level, Level);

/// 'Both are found once and kept for every pair of levels' (01): the least common
/// upper and the greatest common lower levels.
#[derive(Clone, Debug, PartialEq, Eq)]
pub struct Tables {
    pub joins: Table,
    pub meets: Table,
}

/// What the sweep gives.
#[derive(Clone, Copy, Debug, PartialEq, Eq)]
pub struct Swept {
    /// 'The number taken up'.
    pub taken: usize,
    /// The place of the pair that lacks a level, if the sweep took one up.
    pub lacking: Option<usize>,
}

/// Both levels of a pair.
struct Both {
    join: Level,
    meet: Level,
}

/// n(n - 1)/2, the number of the pairs i < j.
pub fn pair_count(count: usize) -> usize {
    count * count.saturating_sub(1) / 2
}

/// 'The sweep, held to the first k pairs, finds both levels of each it takes up
/// that has them, leaves the entries of all other pairs as handed in, and gives the
/// number taken up: the lesser of k and n(n - 1)/2, or at refusal 3 those before
/// the refused pair and one more.' The refused pair is the last that is taken up;
/// nothing is stored of it, also where it has one of its levels.
pub fn sweep(rules: Rules, order: &Order, k: usize, tables: &mut Tables) -> Swept {
    let search = Search::of(order);
    let mut swept = Swept {
        taken: 0,
        lacking: None,
    };
    for pair in search.in_turn(rules).into_iter().take(k) {
        swept.taken += 1;
        match search.both(rules, pair) {
            Some(both) => tables.store(rules, pair, both),
            None => {
                swept.lacking = Some(place(rules, order, pair, swept.taken));
                if !rules.has(Fault::LackingPairLast) {
                    break;
                }
            }
        }
    }
    swept
}

/// The place of a pair: '16i + j'.
fn place(rules: Rules, order: &Order, (i, j): Pair, taken: usize) -> usize {
    match rules.fault {
        Some(Fault::PlaceCountsPairs) => taken,
        Some(Fault::PlaceTimesCount) => order.count() * i + j,
        _ => 16 * i + j,
    }
}

impl Tables {
    /// Tables as their maker hands them in. The diagonal belongs to no pair i < j:
    /// a level's join and meet with itself are that level.
    pub fn before_the_sweep(rules: Rules, order: &Order) -> Tables {
        let mut table = [[0; MOST_LEVELS]; MOST_LEVELS];
        let filled = !rules.has(Fault::DiagonalLeft);
        for i in order.levels().filter(|_| filled) {
            table[i][i] = i as u8;
        }
        Tables {
            joins: table,
            meets: table,
        }
    }

    /// Stores both levels, each in its table, at both entries of the pair. The
    /// entry (i, i) is none of the pair's: only a planted fault stores there.
    fn store(&mut self, rules: Rules, (i, j): Pair, both: Both) {
        let entries = [(i, j), (j, i), (i, i)];
        let stored = match rules.fault {
            Some(Fault::FirstEntryLeft) => &entries[1..2],
            Some(Fault::SecondEntryLeft) => &entries[..1],
            Some(Fault::DiagonalOverwritten) => &entries[..3],
            _ => &entries[..2],
        };
        for &(row, column) in stored {
            self.joins[row][column] = both.join as u8;
            self.meets[row][column] = both.meet as u8;
        }
    }
}

/// Looks for the common levels of pairs.
struct Search<'a> {
    order: &'a Order,
    uppers: LevelSets,
    lowers: LevelSets,
}

impl Search<'_> {
    fn of(order: &Order) -> Search<'_> {
        Search {
            order,
            uppers: order.upper_sets(),
            lowers: order.lower_sets(),
        }
    }

    /// Every pair i < j once, in the order of refusal 3: 'first i, then j'.
    fn in_turn(&self, rules: Rules) -> Vec<Pair> {
        let levels = self.order.levels();
        let above = |i| (i + 1..levels.end).map(move |j| (i, j));
        let mut pairs: Vec<Pair> = levels.clone().flat_map(above).collect();
        match rules.fault {
            Some(Fault::PairsByJFirst) => pairs.sort_by_key(|&(i, j)| (j, i)),
            Some(Fault::UppersBeforeLowers) => {
                pairs.sort_by_key(|&pair| self.join(rules, pair).is_some());
            }
            Some(Fault::LowersBeforeUppers) => {
                pairs.sort_by_key(|&pair| self.meet(rules, pair).is_some());
            }
            Some(Fault::FirstPairLeft) => pairs.retain(|&pair| pair != (0, 1)),
            Some(Fault::LastPairLeft) => drop(pairs.pop()),
            _ => {}
        }
        pairs
    }

    /// Both levels of a pair, if it has them. A pair that lacks one, which only a
    /// planted fault lets through, keeps its first level in its place.
    fn both(&self, rules: Rules, pair: Pair) -> Option<Both> {
        let (join, meet) = (self.join(rules, pair), self.meet(rules, pair));
        let has_both = match rules.fault {
            Some(Fault::UpperLevelsOnly) => join.is_some(),
            Some(Fault::LowerLevelsOnly) => meet.is_some(),
            Some(Fault::OneLevelIsEnough) => join.is_some() || meet.is_some(),
            _ => join.is_some() && meet.is_some(),
        };
        let (i, j) = pair;
        let (join, meet) = (join.unwrap_or(i), meet.unwrap_or(i));
        let exchanged = rules.has(Fault::LevelsExchanged) && self.order.at_or_below(j, i);
        let own = rules.has(Fault::SideBySideByNumber) && self.side_by_side(pair);
        has_both.then_some(match (exchanged, own) {
            (true, _) => Both {
                join: meet,
                meet: join,
            },
            (_, true) => Both { join: j, meet: i },
            _ => Both { join, meet },
        })
    }

    /// The least common upper level.
    fn join(&self, rules: Rules, (i, j): Pair) -> Option<Level> {
        let common = self.uppers[i] & self.uppers[j];
        if rules.has(Fault::AnyUpperLevel) && self.side_by_side((i, j)) {
            return self.order.levels().find(|&k| is_in(common, k));
        }
        extreme(rules, common, &self.uppers)
    }

    /// The greatest common lower level.
    fn meet(&self, rules: Rules, (i, j): Pair) -> Option<Level> {
        let common = self.lowers[i] & self.lowers[j];
        if rules.has(Fault::AnyLowerLevel) && self.side_by_side((i, j)) {
            return self.order.levels().rfind(|&k| is_in(common, k));
        }
        extreme(rules, common, &self.lowers)
    }

    /// Neither is at or below the other.
    fn side_by_side(&self, (i, j): Pair) -> bool {
        !self.order.at_or_below(i, j) && !self.order.at_or_below(j, i)
    }
}

fn is_in(set: u16, k: Level) -> bool {
    set >> k & 1 == 1
}

/// The member of `common` whose set in `sets` holds all of `common`: the least of
/// common upper levels, or the greatest of common lower levels.
fn extreme(rules: Rules, common: u16, sets: &LevelSets) -> Option<Level> {
    let tried = MOST_LEVELS - usize::from(rules.has(Fault::LevelFifteenLeft));
    (0..tried).find(|&k| is_in(common, k) && common & !sets[k] == 0)
}
