//! Every loop of three small acts, from every start, with a few lists, and with logs that fill.

use crate::difference::{compare, show};
use crate::engine::{Raw, Reference};
use cases::file;
use cases::tree::*;
use cases::{Case, Rng};
use reference::Rules;

const A: usize = 0;
const B: usize = 1;
const REGISTER: usize = 2;
const NOW: usize = 3;
const NEVER: usize = 4;
/// The first of the signals that acts declare, one for each place.
const DECLARED: usize = 5;

const PLACES: usize = 3;
const ACTS: usize = 5;

/// The most lines that a log has room for.
const MOST_LINES: usize = 6;

/// Enough for three rounds and more.
const LIMIT: u32 = 30;

/// An act by its number: an emission, an assignment, the next instant, or two emissions of a signal of its own.
fn act(number: usize, place: usize) -> Process {
    let own = DECLARED + place;
    match number {
        0 => Process::Emit(A),
        1 => Process::Emit(B),
        2 => Process::Assign(REGISTER, Expression::Constant(1)),
        3 => sequence(Process::Emit(NOW), watching(NOW, when(NEVER, Process::Nil))),
        _ => local(own, sequence(Process::Emit(own), Process::Emit(own))),
    }
}

/// The loop of a number: its digits are the acts.
fn case(number: usize) -> Case {
    let digit = |place: usize| number / ACTS.pow(place as u32) % ACTS;
    let [first, second, third] = [0, 1, 2].map(|place| act(digit(place), place));
    let round = sequence(first, sequence(second, third));
    let names = (0..DECLARED + PLACES).map(|name| Name {
        signal: name != REGISTER,
        level: 0,
    });
    let script = Script {
        names: names.collect(),
        root: while_do(Expression::Constant(1), round),
    };
    Case {
        book: vec![1, 0, 1],
        script: file::write_names_in_order(&script, &mut Rng::new(1)).bytes(),
        reader: 0,
        values: vec![0; script.names.len()],
        limit: LIMIT,
        list: vec![],
        log: 0,
    }
}

/// Lists that make a and b present in some of the first instants.
fn lists() -> [Vec<u32>; 4] {
    let (a, b) = (A as u32, B as u32);
    [
        vec![],
        vec![1, a],
        vec![1, b, 2, a],
        vec![1, a, 1, b, 2, b, 3, a],
    ]
}

/// Whether a and b are present at the start.
const STARTS: [[i32; 2]; 4] = [[0, 0], [0, 1], [1, 0], [1, 1]];

/// A loop with every list, from every start.
fn cases_of(number: usize) -> Vec<Case> {
    let with = |list: &Vec<u32>, [a, b]: [i32; 2]| {
        let mut case = case(number);
        (case.values[A], case.values[B]) = (a, b);
        case.list.clone_from(list);
        case
    };
    let from_starts = |list: &Vec<u32>| STARTS.map(|start| with(list, start));
    lists().iter().flat_map(from_starts).collect()
}

/// Compares every loop; gives the number of runs.
pub fn compare_all() -> Result<u64, String> {
    let mut compared = 0;
    for case in (0..ACTS.pow(PLACES as u32)).flat_map(cases_of) {
        compared += compare_logs(case)?;
    }
    Ok(compared)
}

/// Compares runs with logs of every number of lines; gives how many.
fn compare_logs(mut case: Case) -> Result<u64, String> {
    for lines in 0..=MOST_LINES {
        case.log = 4 * lines;
        let reference = Reference(Rules::default());
        compare(&Raw, &reference, &case).map_err(|says| format!("{says}\n{}", show(&case)))?;
    }
    Ok(MOST_LINES as u64 + 1)
}

#[cfg(test)]
mod tests {
    use super::*;
    use crate::outcome::outcome;

    #[test]
    fn every_loop_runs_and_fills_a_log() {
        let right = Reference(Rules::default());
        for number in 0..ACTS.pow(PLACES as u32) {
            let ran = outcome(&right, &case(number)).unwrap();
            assert_eq!((ran.refusal(), ran.ending()), (0, 2), "loop {number}");
        }
    }
}
