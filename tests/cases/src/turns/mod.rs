//! Threads that take turns: in each instant one goes on, by one wait, while all others wait. With one parallel at most
//! no script makes more moves for its nodes; with three, one of seven nodes makes a move more.
//!
//! A parallel trades places only where its left part waits and its right part does not, and what was traded to the
//! front goes on until it waits again. It then stands before a when that a move of another node has laid open, so that
//! each turn costs a when and a node before it. With k nodes there are about k / 2 turns, and each trades places once
//! at every parallel above its thread.

pub mod drawn;

use crate::tree::*;

/// A script of signals with a start and a list by which its threads take turns, and the moves that it then makes.
#[derive(Clone, Debug)]
pub struct Turns {
    pub script: Script,
    /// Instant 0 begins with the first signal.
    pub values: Vec<i32>,
    pub list: Vec<u32>,
    pub moves: u32,
}

/// The fewest nodes that threads under so many parallels have: one wait each, but for a nil that goes first.
pub fn fewest_nodes(depth: usize) -> usize {
    (2 << depth) - 2
}

/// Two to the power of `depth` threads that take turns; `nodes` are other than nil, and at least the fewest. Where
/// their number is even, the first turn is no wait but a nil that is dropped.
pub fn in_turn(depth: usize, nodes: usize) -> Turns {
    let threads = 1 << depth;
    let turns = nodes / 2 + 1;
    // So many that the signal of a turn is absent from its thread's turn before to this one.
    let signals = turns.min(threads + 1);
    let wait = |turn: usize| match turn == 0 && nodes.is_multiple_of(2) {
        true => Process::Nil,
        false => when(turn % signals, Process::Nil),
    };
    let thread = |first: usize| thread((first..turns).step_by(threads).map(wait));
    let name = Name {
        signal: true,
        level: 0,
    };
    let pair = |turn: usize| [turn as u32, (turn % signals) as u32];
    Turns {
        script: Script {
            names: vec![name; signals],
            root: halves(0, depth, 0, &thread),
        },
        values: (0..signals).map(|signal| i32::from(signal == 0)).collect(),
        list: (1..turns).flat_map(pair).collect(),
        moves: (nodes + trades(depth, turns)) as u32,
    }
}

/// Each turn trades at every level, until parallels go with the threads that end: of those that are left, half end at
/// the lowest level, and so on.
fn trades(depth: usize, turns: usize) -> usize {
    depth * turns + 1 - (1 << depth)
}

/// `(when a do nil); ((when b do nil); ..)`
fn thread(waits: impl DoubleEndedIterator<Item = Process>) -> Process {
    let mut waits = waits.rev();
    let last = waits.next().unwrap_or(Process::Nil);
    waits.fold(last, |rest, wait| sequence(wait, rest))
}

/// At each level of the parallels the turns go to the right and to the left part by turns, so that every turn trades
/// places at every level.
fn halves(level: usize, depth: usize, first: usize, thread: &dyn Fn(usize) -> Process) -> Process {
    match level == depth {
        true => thread(first),
        false => parallel(
            halves(level + 1, depth, first + (1 << level), thread),
            halves(level + 1, depth, first, thread),
        ),
    }
}

/// Whether a file has room for the script.
pub fn fits(turns: &Turns) -> bool {
    let Script { names, root } = &turns.script;
    root.size() <= crate::file::MOST_NODES && names.len() <= crate::file::MOST_NAMES
}

/// Threads that take turns, of every size that a file has room for.
pub fn all() -> impl Iterator<Item = (usize, usize, Turns)> {
    let of_depth =
        |depth| (fewest_nodes(depth)..).map(move |nodes| (depth, nodes, in_turn(depth, nodes)));
    (0..=6).flat_map(move |depth| of_depth(depth).take_while(|(_, _, turns)| fits(turns)))
}

#[cfg(test)]
mod tests {
    use super::*;

    fn of_kind(process: &Process, is: &dyn Fn(&Process) -> bool) -> usize {
        let below = process.children();
        let below: usize = below.iter().map(|child| of_kind(child, is)).sum();
        below + usize::from(is(process))
    }

    #[test]
    fn the_nodes_are_as_many_as_asked_for() {
        for (depth, nodes, turns) in all() {
            let root = &turns.script.root;
            let other_than_nil = of_kind(root, &|p| !matches!(p, Process::Nil));
            let parallel = of_kind(root, &|p| matches!(p, Process::Parallel(..)));
            assert_eq!((other_than_nil, parallel), (nodes, (1 << depth) - 1));
        }
    }

    #[test]
    fn the_largest_has_all_nodes_of_a_file() {
        assert_eq!(in_turn(1, 170).script.root.size(), crate::file::MOST_NODES);
        assert!(all().count() > 800);
    }
}
