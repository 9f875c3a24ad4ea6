//! Level books whose pairs show in W and T, and books that refusal 3 is given for:
//! the sentences of 01, 'Level book', that 02 (d) keeps. Joins and meets, and the
//! pairs that lack one, were worked out by hand from the rows.

use super::script::*;
use super::{finished, Example, LOG_WORDS};

const LEVELS: &str = "02 (d), 'the same answers'";
const PLACES: &str = "02 (d), 'the same place for refusal 3'";

pub fn all() -> Vec<Example> {
    let groups = [
        last_of_a_chain(),
        first_of_a_chain(),
        last_pair_side_by_side(),
        high_to_low(),
        several_common_levels(),
        sixteen_levels(),
        one_level_twice(),
        last_pair_refused(),
        first_pair_refused(),
        common_but_none_the_least(),
        order_of_the_pairs(),
    ];
    groups.into_iter().flatten().collect()
}

/// The bytes of a book with these rows.
fn book(rows: &[u16]) -> Vec<u8> {
    let mut bytes = vec![rows.len() as u8];
    bytes.extend(rows.iter().flat_map(|row| row.to_be_bytes()));
    bytes
}

/// x := 0; (y := 0; (if x < y then nil else nil)), with x (0) and y (1) of two
/// levels. What is written are these two, so that W is their meet; the test reads
/// both, so that D and T are their join. D is at or below top, the W of the if.
fn writes_and_tests(name: &'static str, rows: &[u16], x_level: u8, y_level: u8) -> Example {
    let mut n = Names::new();
    let (x, y) = (n.register(x_level), n.register(y_level));
    let tests = if_else(less(read(x), read(y)), nil(), nil());
    let process = seq(assign(x, constant(0)), seq(assign(y, constant(0)), tests));
    Example::bytes(name, LEVELS, &book(rows), file(n, &process))
}

/// The script nil under a book that is to be refused.
fn nil_under(name: &'static str, rows: &[u16]) -> Example {
    let script = file(Names::new(), &nil());
    Example::bytes(name, PLACES, &book(rows), script)
}

/// Three levels, each above the one before, and the same upside down.
const LOW_TO_HIGH: [u16; 3] = [0b111, 0b110, 0b100];
const HIGH_TO_LOW: [u16; 3] = [0b001, 0b011, 0b111];

/// 1 and 2 are the last pair. From low to high its join is 2, its meet 1; from high
/// to low its join is 1, its meet 2. The steps are x, drop, y, drop, if; a reader
/// sees what is written at or below its level.
fn last_of_a_chain() -> Vec<Example> {
    let (x_line, y_line) = ([1, 0, 0, 0], [3, 0, 1, 0]);
    let start = |reader| (reader, &[5, 6][..], 9, LOG_WORDS);
    let end = finished(5, 0);
    let example = |name, rows| writes_and_tests(name, rows, 1, 2);
    vec![
        example("a chain from low to high, its last pair", &LOW_TO_HIGH)
            .accepted(1, 2)
            .moves(5)
            .run_with(start(0), end, &[], &[0, 0])
            .run_with(start(1), end, &[x_line], &[0, 0])
            .run_with(start(2), end, &[x_line, y_line], &[0, 0]),
        example("a chain from high to low, its last pair", &HIGH_TO_LOW)
            .accepted(2, 1)
            .moves(5)
            .run_with(start(0), end, &[x_line, y_line], &[0, 0])
            .run_with(start(1), end, &[x_line, y_line], &[0, 0])
            .run_with(start(2), end, &[y_line], &[0, 0]),
    ]
}

/// 0 and 1 are the first pair. From low to high its join is 1, its meet 0; from high
/// to low its join is 0, its meet 1. Whichever of the two comes first.
fn first_of_a_chain() -> Vec<Example> {
    let example = writes_and_tests;
    vec![
        example("a chain from low to high, 0 and 1", &LOW_TO_HIGH, 0, 1)
            .accepted(0, 1)
            .moves(5),
        example("a chain from low to high, 1 and 0", &LOW_TO_HIGH, 1, 0)
            .accepted(0, 1)
            .moves(5),
        example("a chain from high to low, 0 and 1", &HIGH_TO_LOW, 0, 1)
            .accepted(1, 0)
            .moves(5),
        example("a chain from high to low, 1 and 0", &HIGH_TO_LOW, 1, 0)
            .accepted(1, 0)
            .moves(5),
    ]
}

/// 2 and 3, the last pair, side by side. With 0 at the bottom and 1 at the top the
/// join is 1 and the meet 0; upside down, with 0 at the top, the join is 0 and the
/// meet 1. Whichever of the two comes first.
fn last_pair_side_by_side() -> Vec<Example> {
    let bottom_first = [0b1111, 0b0010, 0b0110, 0b1010];
    let top_first = [0b0001, 0b1111, 0b0101, 0b1001];
    vec![
        writes_and_tests("sides 2 and 3 between 0 and 1", &bottom_first, 2, 3)
            .accepted(0, 1)
            .moves(5),
        writes_and_tests("sides 3 and 2 between 0 and 1", &bottom_first, 3, 2)
            .accepted(0, 1)
            .moves(5),
        writes_and_tests("sides 2 and 3 between 1 and 0", &top_first, 2, 3)
            .accepted(1, 0)
            .moves(5),
        writes_and_tests("sides 3 and 2 between 1 and 0", &top_first, 3, 2)
            .accepted(1, 0)
            .moves(5),
    ]
}

/// 0 at the top, 1 and 2 side by side, 3 at the bottom. The join of 1 and 2 is 0,
/// their meet 3. The last pair is 2 and 3: 3 is below 2, so that the join is 2, of
/// the smaller number, and the meet 3.
fn high_to_low() -> Vec<Example> {
    let rows = [0b0001, 0b0011, 0b0101, 0b1111];
    vec![
        writes_and_tests("a diamond from high to low, its sides", &rows, 1, 2)
            .accepted(3, 0)
            .moves(5),
        writes_and_tests("a diamond from high to low, its last pair", &rows, 2, 3)
            .accepted(3, 2)
            .moves(5),
    ]
}

/// 3 and 4 side by side. In the first book 0 is below both, both are below 2, and 2
/// below 1: common upper levels are 1 and 2, and 2 is the least. In the second 2 is
/// below 1, 1 below both, and both below 0: common lower levels are 1 and 2, and 1
/// is the greatest.
fn several_common_levels() -> Vec<Example> {
    let uppers = [0b11111, 0b00010, 0b00110, 0b01110, 0b10110];
    let lowers = [0b00001, 0b11011, 0b11111, 0b01001, 0b10001];
    vec![
        writes_and_tests("two common upper levels", &uppers, 3, 4)
            .accepted(0, 2)
            .moves(5),
        writes_and_tests("two common lower levels", &lowers, 3, 4)
            .accepted(1, 0)
            .moves(5),
    ]
}

/// The subsets of four things. First level i is at or below j if the bits of i are
/// among those of j: the join of 0b0111 and 0b1110 is 0b1111, their meet 0b0110; of
/// 0b1110 and 0b1111, the last pair, the first is below the second. Then upside
/// down: the join of 0b1000 and 0b0001 is 0b0000, their meet 0b1001; of the last
/// pair the second is below the first.
fn sixteen_levels() -> Vec<Example> {
    let sets = |at_or_below: fn(u16, u16) -> bool| {
        let row = |i| (0..16).fold(0, |row, j| row | u16::from(at_or_below(i, j)) << j);
        (0..16).map(row).collect::<Vec<u16>>()
    };
    let (upward, downward) = (sets(|i, j| i & !j == 0), sets(|i, j| j & !i == 0));
    vec![
        writes_and_tests("subsets, 7 and 14", &upward, 7, 14)
            .accepted(6, 15)
            .moves(5),
        writes_and_tests("subsets, 14 and 15", &upward, 14, 15)
            .accepted(14, 15)
            .moves(5),
        writes_and_tests("subsets upside down, 8 and 1", &downward, 8, 1)
            .accepted(9, 0)
            .moves(5),
        writes_and_tests("subsets upside down, 14 and 15", &downward, 14, 15)
            .accepted(15, 14)
            .moves(5),
    ]
}

/// A level and itself are no pair i < j: W and T are that level.
fn one_level_twice() -> Vec<Example> {
    vec![
        writes_and_tests("a middle level and itself", &LOW_TO_HIGH, 1, 1)
            .accepted(1, 1)
            .moves(5),
        writes_and_tests("the last level and itself", &LOW_TO_HIGH, 2, 2)
            .accepted(2, 2)
            .moves(5),
    ]
}

/// Only the last pair lacks a level, and only one: 16 * 2 + 3 is 35. First 0 is
/// below 1, and 1 below 2 and 3, which have no common upper level and 1 as their
/// meet. Then 2 and 3 are below 1, and 1 below 0: their join is 1, and they have no
/// common lower level. Then 16 levels, 0 to 13 a chain: 16 * 14 + 15 is 239, with 13
/// as the meet, and upside down as the join.
fn last_pair_refused() -> Vec<Example> {
    let chain = |row: fn(u16) -> u16| (0..14).map(row).collect::<Vec<u16>>();
    let below = [chain(|i| 0xFFFF << i), vec![0x4000, 0x8000]].concat();
    let above = [chain(|i| (2 << i) - 1), vec![0x7FFF, 0xBFFF]].concat();
    vec![
        nil_under("the last pair has only its lower level", &[15, 14, 4, 8]).refused(3, 35),
        nil_under("the last pair has only its upper level", &[1, 3, 7, 11]).refused(3, 35),
        nil_under("the last of 120 pairs has only its lower level", &below).refused(3, 239),
        nil_under("the last of 120 pairs has only its upper level", &above).refused(3, 239),
    ]
}

/// 0 and 1 lack a level: with 2 below both the upper one, alone in the book both.
fn first_pair_refused() -> Vec<Example> {
    vec![
        nil_under("the first pair has only its lower level", &[1, 2, 7]).refused(3, 1),
        nil_under("the only pair has neither level", &[1, 2]).refused(3, 1),
    ]
}

/// 0 at the bottom, 1 and 2 below both 3 and 4, 5 at the top. Common upper levels of
/// 1 and 2 are 3, 4 and 5, none of them at or below both others: 16 * 1 + 2 is 18. Of
/// 3 and 4 no common lower level is the greatest; that pair comes later.
fn common_but_none_the_least() -> Vec<Example> {
    let rows = [0b111111, 0b111010, 0b111100, 0b101000, 0b110000, 0b100000];
    vec![nil_under("common upper levels, none the least", &rows).refused(3, 18)]
}

/// In the first book 1 is below 0 and 3, and 2 below 0. Pair 03 has 1 as its meet
/// and no common upper level; pair 12 has 0 as its join and no common lower level;
/// pair 23 has neither. First i, then j: 03. The second book is the first upside
/// down: pair 03 has 1 as its join and no common lower level, pair 12 no common
/// upper level. In the third 0 is below 1, and 2 below 3: 02 is the first of four
/// pairs that lack both levels.
fn order_of_the_pairs() -> Vec<Example> {
    vec![
        nil_under("a pair without its upper level first", &[1, 11, 5, 8]).refused(3, 3),
        nil_under("a pair without its lower level first", &[7, 2, 4, 10]).refused(3, 3),
        nil_under("four pairs without either level", &[3, 2, 12, 8]).refused(3, 2),
    ]
}
