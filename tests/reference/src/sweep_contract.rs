//! The contract of the sweep (02 (d)), said entry by entry, and the sweep held to
//! it: for each number of pairs, over seeded orders, right ones and ones refused
//! by 3. A few sweeps are worked out by hand.

use crate::order::{Level, Order, MOST_LEVELS};
use crate::sweep::{pair_count, sweep, Swept, Table, Tables};
use crate::{Fault, Rules};
use cases::Rng;

/// For every two levels the level that they have in common, where there is one.
type Common = [[Option<Level>; MOST_LEVELS]; MOST_LEVELS];

/// The contract's words about one order, whatever k and the tables are.
struct Contract {
    count: usize,
    joins: Common,
    meets: Common,
    /// How many pairs come before the first that lacks a level, if one does.
    refused: Option<usize>,
}

/// Something for every two levels.
fn every_two<T>(of: impl Fn(Level, Level) -> T) -> [[T; MOST_LEVELS]; MOST_LEVELS] {
    std::array::from_fn(|i| std::array::from_fn(|j| of(i, j)))
}

/// The common level that comes before every other one: the least upper level, or
/// the greatest lower level.
fn common(
    order: &Order,
    is_common: impl Fn(Level) -> bool,
    comes_before: impl Fn(Level, Level) -> bool,
) -> Option<Level> {
    let comes_first = |k| {
        let mut others = order.levels().filter(|&l| is_common(l));
        others.all(|l| comes_before(k, l))
    };
    order.levels().find(|&k| is_common(k) && comes_first(k))
}

impl Contract {
    fn of(order: &Order) -> Contract {
        let leq = |i, j| order.at_or_below(i, j);
        let mut contract = Contract {
            count: order.count(),
            joins: every_two(|i, j| common(order, |k| leq(i, k) && leq(j, k), leq)),
            meets: every_two(|i, j| common(order, |k| leq(k, i) && leq(k, j), |k, l| leq(l, k))),
            refused: None,
        };
        let pairs = order.levels().flat_map(|i| (0..i).map(move |j| (i, j)));
        let lacking = pairs.filter(|&(i, j)| !contract.has_both(i, j));
        contract.refused = lacking.map(|(i, j)| contract.before(i, j)).min();
        contract
    }

    fn has_both(&self, i: Level, j: Level) -> bool {
        self.joins[i][j].is_some() && self.meets[i][j].is_some()
    }

    /// How many pairs come before that of two levels, 'first i, then j': n - 1
    /// begin with level 0, n - 2 with level 1, and so on.
    fn before(&self, one: Level, other: Level) -> usize {
        let (i, j) = (one.min(other), one.max(other));
        i * (2 * self.count - i - 1) / 2 + (j - i - 1)
    }

    /// 'The lesser of k and n(n - 1)/2, or at refusal 3 those before the refused
    /// pair and one more.'
    fn taken(&self, k: usize) -> usize {
        match self.refused {
            Some(before) if before < k => before + 1,
            _ => k.min(self.count * (self.count - 1) / 2),
        }
    }

    /// Whether a table's entry is one of a pair that is 'taken up' and 'has' both
    /// levels.
    fn is_stored(&self, k: usize, i: Level, j: Level) -> bool {
        let is_of_a_pair = i != j && i.max(j) < self.count;
        is_of_a_pair && self.before(i, j) < self.taken(k) && self.has_both(i, j)
    }

    /// An entry after the sweep: the level of its pair, or 'as handed in'.
    fn entry(&self, k: usize, common: &Common, handed_in: &Table, i: Level, j: Level) -> u8 {
        match common[i][j] {
            Some(level) if self.is_stored(k, i, j) => level as u8,
            _ => handed_in[i][j],
        }
    }

    fn table(&self, k: usize, common: &Common, handed_in: &Table) -> Table {
        every_two(|i, j| self.entry(k, common, handed_in, i, j))
    }

    /// The tables after the sweep.
    fn tables(&self, k: usize, handed_in: &Tables) -> Tables {
        Tables {
            joins: self.table(k, &self.joins, &handed_in.joins),
            meets: self.table(k, &self.meets, &handed_in.meets),
        }
    }

    /// Whether a sweep over marks keeps the contract.
    fn is_kept(&self, rules: Rules, order: &Order, k: usize) -> bool {
        let (swept, tables) = swept(rules, order, k);
        let refused = self.refused.is_some_and(|before| before < k);
        swept.taken == self.taken(k)
            && swept.lacking.is_some() == refused
            && tables == self.tables(k, &marks())
    }
}

/// Tables full of marks that are no levels, with other marks at the entries beside.
fn marks() -> Tables {
    let table = |from: usize| {
        let mark = |i, j| 200 + ((from + 16 * i + j) % 56) as u8;
        every_two(mark)
    };
    Tables {
        joins: table(0),
        meets: table(23),
    }
}

/// The sweep over marks, held to k pairs.
fn swept(rules: Rules, order: &Order, k: usize) -> (Swept, Tables) {
    let mut tables = marks();
    let swept = sweep(rules, order, k, &mut tables);
    (swept, tables)
}

/// Sets by inclusion, under numbers in the order of the list.
fn by_inclusion(sets: &[u32]) -> Order {
    let row = |a: &u32| {
        let above = (0..sets.len()).filter(|&j| a & !sets[j] == 0);
        above.fold(0, |row, j| row | 1 << j)
    };
    Order::of_rows(sets.iter().map(row))
}

/// An order of at most 16 levels: some sets by inclusion. Closed under
/// intersection and with a set that holds all others, they have both levels of
/// every pair; without one of them, or not closed, they may lack some.
fn some_order(random: &mut Rng) -> Order {
    let closed = random.below(3) > 0;
    let mut sets: Vec<u32> = vec![0xFF];
    for _ in 0..random.below(MOST_LEVELS) {
        let new = (random.below(256) | random.below(256)) as u32;
        let parts = sets.iter().map(|set| set & new);
        let mut grown: Vec<u32> = match closed {
            true => parts.chain(sets.iter().copied()).collect(),
            false => sets.iter().copied().chain([new]).collect(),
        };
        grown.sort_unstable();
        grown.dedup();
        if grown.len() <= MOST_LEVELS + 1 {
            sets = grown;
        }
    }
    if sets.len() > MOST_LEVELS || (sets.len() > 1 && random.below(2) == 0) {
        sets.remove(random.below(sets.len()));
    }
    numbered(random, sets)
}

/// Sets in ascending order become levels from low to high, from high to low or
/// numbered at random.
fn numbered(random: &mut Rng, mut sets: Vec<u32>) -> Order {
    match random.below(4) {
        0 => {}
        1 => sets.reverse(),
        _ => (1..sets.len()).for_each(|last| sets.swap(last, random.below(last + 1))),
    }
    by_inclusion(&sets)
}

/// 'By its contract', for every k up to two more than there are pairs.
#[test]
fn the_sweep_keeps_its_contract() {
    let mut random = Rng::new(4);
    let mut seen = [[0; 2]; MOST_LEVELS + 1];
    for _ in 0..1000 {
        let order = some_order(&mut random);
        let contract = Contract::of(&order);
        for k in 0..=pair_count(order.count()) + 2 {
            let kept = contract.is_kept(Rules::default(), &order, k);
            assert!(kept, "{order:?}, {k} pairs");
        }
        seen[order.count()][usize::from(contract.refused.is_some())] += 1;
    }
    // Of one level no pair is refused; of every other number both sorts occur.
    assert!(seen[1][0] > 0, "{seen:?}");
    assert!(seen[2..].as_flattened().iter().all(|&n| n > 0), "{seen:?}");
}

/// The place is that of the pair taken up last: '16i + j'. Pairs occur that have
/// their upper level only, their lower level only, and neither.
#[test]
fn the_place_is_that_of_the_refused_pair() {
    let mut random = Rng::new(5);
    let mut seen = [[0; 2]; 2];
    for _ in 0..1000 {
        let order = some_order(&mut random);
        let contract = Contract::of(&order);
        let (swept, _) = swept(Rules::default(), &order, pair_count(order.count()));
        if let Some(place) = swept.lacking {
            let (i, j) = (place / 16, place % 16);
            assert!(i < j && j < order.count());
            assert_eq!(Some(contract.before(i, j)), contract.refused);
            let (join, meet) = (contract.joins[i][j], contract.meets[i][j]);
            seen[usize::from(join.is_some())][usize::from(meet.is_some())] += 1;
        }
    }
    let [[neither, lower], [upper, both]] = seen;
    assert!(
        neither > 10 && lower > 10 && upper > 10 && both == 0,
        "{seen:?}"
    );
}

/// The planted faults of the sweep, but those of the maker and of the place alone.
const FAULTS: [Fault; 17] = [
    Fault::UpperLevelsOnly,
    Fault::LowerLevelsOnly,
    Fault::OneLevelIsEnough,
    Fault::PairsByJFirst,
    Fault::UppersBeforeLowers,
    Fault::LowersBeforeUppers,
    Fault::LackingPairLast,
    Fault::FirstPairLeft,
    Fault::LastPairLeft,
    Fault::FirstEntryLeft,
    Fault::SecondEntryLeft,
    Fault::DiagonalOverwritten,
    Fault::LevelsExchanged,
    Fault::SideBySideByNumber,
    Fault::AnyUpperLevel,
    Fault::AnyLowerLevel,
    Fault::LevelFifteenLeft,
];

/// A contract that no sweep breaks says nothing.
#[test]
fn planted_faults_break_the_contract() {
    for fault in FAULTS {
        let rules = Rules { fault: Some(fault) };
        let mut random = Rng::new(6);
        let mut breaks = || {
            let order = some_order(&mut random);
            let contract = Contract::of(&order);
            let mut numbers = 0..=pair_count(order.count());
            numbers.any(|k| !contract.is_kept(rules, &order, k))
        };
        assert!((0..500).any(|_| breaks()), "{}", fault.says());
    }
}

/// Marks with these levels stored: (i, j, join, meet), at both entries.
fn stored(levels: &[(Level, Level, u8, u8)]) -> Tables {
    let mut tables = marks();
    for &(i, j, join, meet) in levels {
        (tables.joins[i][j], tables.joins[j][i]) = (join, join);
        (tables.meets[i][j], tables.meets[j][i]) = (meet, meet);
    }
    tables
}

fn assert_sweep(
    order: &Order,
    k: usize,
    (taken, lacking): (usize, Option<usize>),
    levels: &[(Level, Level, u8, u8)],
) {
    let expected = (Swept { taken, lacking }, stored(levels));
    assert_eq!(swept(Rules::default(), order, k), expected, "{k} pairs");
}

/// 0 at the bottom, 1 and 2 side by side, 3 at the top: pairs 01, 02, 03, 12, 13,
/// 23, of which 12 is side by side.
#[test]
fn a_diamond_by_hand() {
    let order = Order::of_rows([0b1111, 0b1010, 0b1100, 0b1000].into_iter());
    let levels = [
        (0, 1, 1, 0),
        (0, 2, 2, 0),
        (0, 3, 3, 0),
        (1, 2, 3, 0),
        (1, 3, 3, 1),
        (2, 3, 3, 2),
    ];
    for k in 0..=6 {
        assert_sweep(&order, k, (k, None), &levels[..k]);
    }
    assert_sweep(&order, 7, (6, None), &levels);
    assert_sweep(&order, usize::MAX, (6, None), &levels);
}

/// 0 below 1, 1 below 2 and 3: pair 23, the last, has 1 as its meet and no common
/// upper level. Its place is 16 * 2 + 3.
#[test]
fn a_refused_pair_with_its_lower_level_only() {
    let order = Order::of_rows([0b1111, 0b1110, 0b0100, 0b1000].into_iter());
    let levels = [
        (0, 1, 1, 0),
        (0, 2, 2, 0),
        (0, 3, 3, 0),
        (1, 2, 2, 1),
        (1, 3, 3, 1),
    ];
    assert_sweep(&order, 0, (0, None), &[]);
    assert_sweep(&order, 5, (5, None), &levels);
    assert_sweep(&order, 6, (6, Some(35)), &levels);
    assert_sweep(&order, 7, (6, Some(35)), &levels);
}

/// 2 and 3 below 1, 1 below 0: pair 23 has 1 as its join and no common lower level.
#[test]
fn a_refused_pair_with_its_upper_level_only() {
    let order = Order::of_rows([0b0001, 0b0011, 0b0111, 0b1011].into_iter());
    let levels = [
        (0, 1, 0, 1),
        (0, 2, 0, 2),
        (0, 3, 0, 3),
        (1, 2, 1, 2),
        (1, 3, 1, 3),
    ];
    assert_sweep(&order, 5, (5, None), &levels);
    assert_sweep(&order, 6, (6, Some(35)), &levels);
}

/// 0 below 1 and 2 below 3, nothing else: pair 02, the second, has neither level.
/// Pair 23, behind it, has both, and is not taken up.
#[test]
fn a_refused_pair_with_neither_level() {
    let order = Order::of_rows([0b0011, 0b0010, 0b1100, 0b1000].into_iter());
    let levels = [(0, 1, 1, 0)];
    assert_sweep(&order, 0, (0, None), &[]);
    assert_sweep(&order, 1, (1, None), &levels);
    for k in 2..=8 {
        assert_sweep(&order, k, (2, Some(2)), &levels);
    }
}

#[test]
fn one_level_has_no_pair() {
    let order = Order::of_rows([0b1].into_iter());
    for k in 0..3 {
        assert_sweep(&order, k, (0, None), &[]);
    }
}

/// The maker fills the diagonal, which the sweep leaves.
#[test]
fn the_diagonal_is_the_makers() {
    let order = Order::of_rows([0b111, 0b110, 0b100].into_iter());
    let made = Tables::before_the_sweep(Rules::default(), &order);
    let mut tables = made.clone();
    sweep(Rules::default(), &order, 3, &mut tables);
    for i in 0..3 {
        assert_eq!((made.joins[i][i], made.meets[i][i]), (i as u8, i as u8));
        assert_eq!((tables.joins[i][i], tables.meets[i][i]), (i as u8, i as u8));
    }
}
