//! How near the runs of small scripts come to the figure of 02 (f).

use reference::nearest::{nearest, Nearest};
use reference::small_scripts::Kinds;
use reference::{check, run_counted, Rules, RunArguments};

const BOOK: [u8; 3] = [1, 0, 1];

/// The most moves by k, from 0, then by p, from 0. Without a parallel the figure is met.
const MOST: [&[u32]; 8] = [
    &[0],
    &[1, 1],
    &[2, 3, 2],
    &[3, 4, 5, 3],
    &[4, 6, 7, 7, 4],
    &[5, 7, 8, 9, 9, 5],
    &[6, 9, 10, 11, 11, 11, 6],
    &[7, 10, 12, 13, 14, 13, 13, 7],
];

fn assert_table(found: &[Nearest], nodes: u32) {
    let most = |n: &Nearest| MOST[n.nodes as usize][n.parallel as usize];
    assert_eq!(found.len() as u32, (nodes + 1) * (nodes + 2) / 2);
    for script in found {
        assert_eq!(script.moves, most(script), "{script:?}");
    }
}

#[test]
fn waits_and_turns_make_the_most_moves() {
    assert_table(&nearest(Kinds::Waits, 7), 7);
}

/// Emissions, watchings and signals that are waited for at several places add nothing.
#[test]
fn other_kinds_make_no_more() {
    assert_table(&nearest(Kinds::All, 5), 5);
}

/// The figure less p is never exceeded: the last of the nodes below a parallel to make
/// its own move is not followed by a trade of it.
#[test]
fn the_figure_is_met_without_a_parallel_alone() {
    for (k, row) in (0u32..).zip(MOST) {
        for (p, &moves) in (0u32..).zip(row) {
            assert!(moves <= (k * (p + 1)).saturating_sub(p));
            assert_eq!(moves == k * (p + 1), p == 0);
        }
    }
}

/// With one parallel, half as many moves again as there are nodes.
#[test]
fn one_parallel_adds_half() {
    for (k, row) in (0..).zip(MOST).skip(1) {
        assert_eq!(row[1], k + k / 2);
    }
}

/// The scripts run as the search says.
#[test]
fn the_nearest_scripts_run() {
    for near in nearest(Kinds::All, 4) {
        let arguments = RunArguments {
            reader: 0,
            values: &mut near.values.clone(),
            limit: 1000,
            list: &near.list,
            log: &mut [0; 100],
        };
        let figure = check(Rules::default(), &BOOK, &near.script).moves;
        assert_eq!(figure, near.nodes * (near.parallel + 1));
        let (ran, moves) = run_counted(Rules::default(), &BOOK, &near.script, arguments);
        assert_eq!((ran.number, ran.ending), (0, 0), "{near:?}");
        assert_eq!(moves.all, near.moves, "{near:?}");
    }
}
