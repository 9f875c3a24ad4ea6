//! Scripts that come as near the figure of 02 (f) as any is known to: the library makes exactly the moves that are
//! said of them.

use crate::difference::{compare, show};
use crate::engine::{Raw, Reference, Wrapper};
use crate::move_claims;
use cases::file;
use cases::turns::{self, Turns};
use cases::{Case, Rng};
use reference::nearest;
use reference::small_scripts::{files, Kinds, SignalFile};
use reference::Rules;

/// The most nodes other than nil of the scripts whose nearest are looked for.
const NODES: usize = 6;

/// The most nodes other than nil of the scripts that are run in every way.
const FEW_NODES: usize = 3;

/// In so many instants signals are present as they begin, the first among them.
const INSTANTS: usize = 3;

/// Enough steps for any of the runs.
const LIMIT: u32 = 10_000;

/// A run of a script whose names are signals of one level.
fn case(script: Vec<u8>, values: Vec<i32>, list: Vec<u32>) -> Case {
    Case {
        book: vec![1, 0, 1],
        script,
        reader: 0,
        values,
        limit: LIMIT,
        list,
        log: 0,
    }
}

/// The library agrees with the reference, by both ways in, and the run makes so many moves.
fn makes(case: &Case, moves: u32) -> Result<(), String> {
    let reference = Reference(Rules::default());
    let wrong = |says| format!("{says}\n{}", show(case));
    let seen = compare(&Raw, &reference, case).map_err(wrong)?;
    compare(&Raw, &Wrapper, case).map_err(wrong)?;
    move_claims::hold(&seen).map_err(wrong)?;
    match (seen.refusal(), seen.ending(), seen.moves == moves) {
        (0, 0, true) => Ok(()),
        _ => Err(wrong(format!("{:?}, and not {moves} moves", seen.run))),
    }
}

/// Of all small scripts those that make the most moves; gives their number.
pub fn nearest() -> Result<usize, String> {
    let nearest = nearest::nearest(Kinds::Waits, NODES);
    for near in &nearest {
        let case = case(near.script.clone(), near.values.clone(), near.list.clone());
        makes(&case, near.moves)?;
    }
    Ok(nearest.len())
}

fn take_turns(turns: &Turns) -> Result<(), String> {
    let script = file::write_names_in_order(&turns.script, &mut Rng::new(1)).bytes();
    let case = case(script, turns.values.clone(), turns.list.clone());
    makes(&case, turns.moves)
}

/// Threads that take turns, of every size that a file has room for; gives how many scripts.
pub fn turns() -> Result<usize, String> {
    let mut scripts = 0;
    for (_, _, turns) in turns::all() {
        take_turns(&turns)?;
        scripts += 1;
    }
    Ok(scripts)
}

/// The start and the list of a number: its digits are the signals with which the instants begin.
fn begun(file: &SignalFile, number: usize) -> Case {
    let bits = |instant: usize| number >> (instant * file.signals);
    let begins = |instant: usize, name: usize| bits(instant) >> name & 1;
    let values = (0..file.signals).map(|name| begins(0, name) as i32);
    let pairs = (1..INSTANTS).flat_map(|i| (0..file.signals).map(move |name| (i, name)));
    let listed = pairs.filter(|&(i, name)| begins(i, name) == 1);
    let list = listed.flat_map(|(i, name)| [i as u32, name as u32]);
    let case = case(file.script.clone(), values.collect(), list.collect());
    Case {
        limit: LIMIT / 100,
        log: 16,
        ..case
    }
}

/// Every small script, from every start and with every list of a few instants; gives how many runs.
pub fn small_scripts() -> Result<u64, String> {
    let reference = Reference(Rules::default());
    let mut runs = 0;
    for file in files(Kinds::All, FEW_NODES) {
        for number in 0..1 << (INSTANTS * file.signals) {
            let case = begun(&file, number);
            let seen = compare(&Raw, &reference, &case);
            let held = seen.and_then(|seen| move_claims::hold(&seen));
            held.map_err(|says| format!("{says}\n{}", show(&case)))?;
            runs += 1;
        }
    }
    Ok(runs)
}

#[cfg(test)]
mod tests {
    use super::*;

    #[test]
    fn a_wrong_number_of_moves_is_seen() {
        let turns = turns::in_turn(1, 7);
        assert_eq!((turns.moves, take_turns(&turns)), (10, Ok(())));
        let wrong = Turns { moves: 11, ..turns };
        assert!(take_turns(&wrong).is_err());
    }

    #[test]
    fn the_digits_of_a_number_are_sets() {
        let file = SignalFile {
            script: vec![],
            signals: 2,
        };
        let case = begun(&file, 0b01_10_11);
        assert_eq!((case.values, case.list), (vec![1, 1], vec![1, 1, 2, 0]));
    }

    #[test]
    fn threads_take_turns_in_the_library() {
        assert!(turns().is_ok_and(|scripts| scripts > 800));
    }
}
