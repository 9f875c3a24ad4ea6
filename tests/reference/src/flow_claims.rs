//! Tests of what 02 (e) says of flows and check, on the examples of the papers.

use crate::check::well_formed;
use crate::examples::{all, every_level};
use crate::file::File;
use crate::flows::Flows;
use crate::order::{Level, MOST_LEVELS};
use crate::{check, flows, Rules};

/// The listed pairs (from, to).
fn pairs(flows: Flows) -> impl Iterator<Item = (Level, Level)> {
    let levels = 0..MOST_LEVELS;
    let every = levels.flat_map(|i| (0..MOST_LEVELS).map(move |j| (i, j)));
    every.filter(move |&(i, j)| flows[i] >> j & 1 == 1)
}

/// 'Under any book that passes 1 to 3 and has the script's levels, refusal 11 is
/// given exactly when some listed pair is absent from its order.'
#[test]
fn refusal_11_is_given_for_an_absent_pair() {
    let rules = Rules::default();
    let mut given = [0, 0];
    for example in all() {
        let Ok((book, _)) = well_formed(rules, &example.book, &example.script) else {
            continue;
        };
        let number = check(rules, &example.book, &example.script).number;
        let listed = flows(rules, &example.script).flows;
        let absent = pairs(listed).any(|(i, j)| !book.at_or_below(i, j));
        assert_eq!(number == 11, absent, "{}", example.name);
        given[usize::from(absent)] += 1;
    }
    assert!(given.iter().all(|&examples| examples > 15), "{given:?}");
}

/// 'A file that passes 4 to 10 (no book here: 6 takes levels to 15)': refused as
/// under a book of all levels, and then every set is empty.
#[test]
fn a_file_is_refused_as_under_all_levels() {
    let rules = Rules::default();
    for example in all() {
        let under = check(rules, &every_level(), &example.script);
        let alone = flows(rules, &example.script);
        let refusal = match under.number {
            4..=10 => (under.number, under.place),
            _ => (0, 0),
        };
        assert_eq!((alone.number, alone.place), refusal, "{}", example.name);
        let empty = pairs(alone.flows).next().is_none();
        assert!(alone.number == 0 || empty, "{}", example.name);
    }
}

/// A level is never in its own set, and a level that the script doesn't use in none.
#[test]
fn the_sets_are_of_other_levels_that_the_script_has() {
    let rules = Rules::default();
    for example in all() {
        let Ok(file) = File::read(rules, &example.script) else {
            continue;
        };
        let levels: Vec<Level> = file.names.iter().map(|x| x.level as Level).collect();
        for (i, j) in pairs(flows(rules, &example.script).flows) {
            let has = levels.contains(&i) && levels.contains(&j);
            assert!(i != j && has, "{}", example.name);
        }
    }
}
