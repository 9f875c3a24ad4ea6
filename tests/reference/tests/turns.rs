//! Threads that take turns make as many moves as is said of them.

use cases::turns::{all, in_turn, Turns};
use cases::{file, Rng};
use reference::{check, run_counted, Rules, RunArguments};

const BOOK: [u8; 3] = [1, 0, 1];

/// The figure of a script, and the moves of its run, which finishes.
fn figure_and_moves(turns: &Turns) -> (u32, u32) {
    let script = file::write_names_in_order(&turns.script, &mut Rng::new(1)).bytes();
    let arguments = RunArguments {
        reader: 0,
        values: &mut turns.values.clone(),
        limit: 10_000,
        list: &turns.list,
        log: &mut [],
    };
    let (ran, moves) = run_counted(Rules::default(), &BOOK, &script, arguments);
    assert_eq!((ran.number, ran.ending), (0, 0));
    assert_eq!(ran.instants as usize, turns.list.len() / 2);
    assert_eq!(ran.steps - ran.instants, moves.all);
    (check(Rules::default(), &BOOK, &script).moves, moves.all)
}

#[test]
fn threads_make_the_moves_that_are_said_of_them() {
    for (depth, nodes, turns) in all() {
        let figure = (nodes << depth) as u32;
        assert_eq!(figure_and_moves(&turns), (figure, turns.moves));
    }
}

/// One thread meets the figure; two make half as many moves again as they have nodes,
/// four about twice as many.
#[test]
fn more_threads_make_more_moves() {
    let moves = |depth, nodes| in_turn(depth, nodes).moves as usize;
    for nodes in 6..=170 {
        assert_eq!(moves(0, nodes), nodes);
        assert_eq!(moves(1, nodes), nodes + nodes / 2);
        assert_eq!(moves(2, nodes), 2 * nodes - 1 - nodes % 2);
    }
    assert_eq!(
        (moves(3, 170), moves(4, 170), moves(5, 170)),
        (421, 499, 569)
    );
}
