//! Cases whose threads take turns, and such cases with something changed.

use super::{fewest_nodes, in_turn, Turns};
use crate::damage::Draft;
use crate::file;
use crate::list::{in_order, pairs};
use crate::order::Lattice;
use crate::rng::Rng;
use crate::tree::*;

/// The most parallels above a thread.
const MOST_DEPTH: usize = 5;

/// The most nodes other than nil that a file has room for, beside the nil of each wait.
const MOST_OTHER_THAN_NIL: usize = 170;

/// The largest script in which waits are changed, since a change adds nodes.
const MOST_CHANGED: usize = 80;

/// A draft that is not refused.
pub fn draft(rng: &mut Rng, lattice: Lattice) -> Draft {
    let mut turns = some_turns(rng);
    let level = rng.below(lattice.count());
    turns
        .script
        .names
        .iter_mut()
        .for_each(|name| name.level = level);
    if turns.script.root.size() <= MOST_CHANGED && rng.chance(1, 2) {
        let names = turns.script.names.len();
        turns.script.root = changed(rng, names, turns.script.root);
    }
    if rng.chance(1, 3) {
        change_list(rng, &mut turns);
    }
    Draft {
        book: lattice.order.book(),
        file: file::write_names_in_order(&turns.script, rng),
        script: None,
        reader: rng.below(lattice.count()) as u32,
        limit: limit(rng, &turns),
        values: turns.values,
        list: turns.list,
        log: rng.below(60),
        lattice,
    }
}

fn some_turns(rng: &mut Rng) -> Turns {
    let depth = match rng.chance(1, 2) {
        true => 1,
        false => rng.below(MOST_DEPTH + 1),
    };
    let fewest = fewest_nodes(depth);
    let most = match rng.chance(2, 3) {
        true => fewest + 20,
        false => MOST_OTHER_THAN_NIL,
    };
    in_turn(depth, rng.between(fewest, most))
}

/// Enough for all steps, or for some.
fn limit(rng: &mut Rng, turns: &Turns) -> u32 {
    let steps = turns.moves as usize + turns.list.len() / 2;
    let limit = match rng.chance(3, 4) {
        true => steps + rng.below(100),
        false => rng.between(1, steps),
    };
    limit as u32
}

/// The process with some of its waits changed.
fn changed(rng: &mut Rng, names: usize, process: Process) -> Process {
    match process {
        Process::When(signal, body) if rng.chance(1, 5) => {
            let other = rng.below(names);
            let wait = when(signal, *body);
            let constant = Expression::Constant(rng.below(2) as i32);
            match rng.below(7) {
                0 => when(signal, Process::Emit(other)),
                1 => watching(other, wait),
                2 => if_else(constant, wait, Process::Nil),
                3 => sequence(Process::Nil, wait),
                4 => parallel(wait, Process::Nil),
                5 => sequence(never(), wait),
                _ => when(other, wait),
            }
        }
        Process::Sequence(first, second) => {
            sequence(changed(rng, names, *first), changed(rng, names, *second))
        }
        Process::Parallel(left, right) => {
            parallel(changed(rng, names, *left), changed(rng, names, *right))
        }
        other => other,
    }
}

/// `while 0 do nil`: a while, though it never runs.
fn never() -> Process {
    while_do(Expression::Constant(0), Process::Nil)
}

/// Leaves a pair out, or adds one, or has a wait for nothing before the turns go on.
fn change_list(rng: &mut Rng, turns: &mut Turns) {
    let mut pairs = pairs(&turns.list);
    let place = rng.below(pairs.len());
    match rng.below(3) {
        0 if !pairs.is_empty() => {
            pairs.remove(place);
        }
        1 => {
            let name = rng.below(turns.script.names.len());
            pairs.push([rng.between(1, pairs.len() + 1) as u32, name as u32]);
        }
        _ => {
            let gap = rng.between(1, 20) as u32;
            pairs.iter_mut().skip(place).for_each(|pair| pair[0] += gap);
        }
    }
    turns.list = in_order(pairs);
}
