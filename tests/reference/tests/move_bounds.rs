//! What 02 (f) says of check and run, on the examples of the papers.

use reference::examples::{all, Example, ExampleRun};
use reference::{check, run_counted, CheckAnswer, Fault, Moves, Rules, RunAnswer, RunArguments};

fn run(rules: Rules, example: &Example, run: &ExampleRun) -> (RunAnswer, Moves) {
    let arguments = RunArguments {
        reader: run.reader,
        values: &mut run.values.clone(),
        limit: run.limit,
        list: &run.list,
        log: &mut vec![0; run.log],
    };
    run_counted(rules, &example.book, &example.script, arguments)
}

/// Kinds of the nodes of a script file, in their order.
fn kinds(script: &[u8]) -> Vec<u8> {
    let tail = script.len() - 8;
    let offset = |at: usize| usize::from(u16::from_be_bytes([script[at], script[at + 1]]));
    let nodes = &script[offset(tail + 2)..offset(tail + 4)];
    nodes.chunks_exact(8).map(|node| node[0]).collect()
}

/// 'k nodes other than nil and p parallel nodes', or a while: every node of an accepted
/// file lies in the script, so that the file's nodes can be counted.
#[test]
fn the_figure_counts_the_nodes_of_the_file() {
    let mut seen = [0, 0];
    for example in all() {
        let answer = check(Rules::default(), &example.book, &example.script);
        if answer.number != 0 {
            assert_eq!((answer.bounded, answer.moves), (0, 0), "{}", example.name);
            continue;
        }
        let kinds = kinds(&example.script);
        let k = kinds.iter().filter(|&&kind| kind != 0).count() as u32;
        let p = kinds.iter().filter(|&&kind| kind == 10).count() as u32;
        let expected = match kinds.contains(&4) {
            true => (0, 0),
            false => (1, k * (p + 1)),
        };
        assert_eq!((answer.bounded, answer.moves), expected, "{}", example.name);
        seen[answer.bounded as usize] += 1;
    }
    assert!(seen.iter().all(|&examples| examples > 15), "{seen:?}");
}

/// 'At most k × (p + 1) moves in its whole run'; 'instant changes are not moves'.
fn holds(checked: CheckAnswer, ran: RunAnswer, moves: Moves) -> bool {
    let counted = ran.steps.checked_sub(ran.instants) == Some(moves.all);
    counted && (checked.bounded == 0 || moves.all <= checked.moves)
}

#[test]
fn no_run_makes_more_moves() {
    let rules = Rules::default();
    for example in all() {
        let checked = check(rules, &example.book, &example.script);
        for expected in &example.runs {
            let (ran, moves) = run(rules, &example, expected);
            assert!(holds(checked, ran, moves), "{}", example.name);
        }
    }
}

/// Wrong figures, wrong counts and wrong steps by which a run makes more moves.
const BREAK: [Fault; 13] = [
    Fault::ParallelIsNoNode,
    Fault::ParallelsForgotten,
    Fault::ParallelsWithoutOne,
    Fault::OneAddedToProduct,
    Fault::FigureOneLess,
    Fault::FirstBranchCounts,
    Fault::SecondBranchCounts,
    Fault::WhileHasFigure,
    Fault::ChangesAreMoves,
    Fault::ListedTakesStep,
    Fault::TradesWithSuspended,
    Fault::NilLeftPartTrades,
    Fault::AbsentWhenMoves,
];

#[test]
fn wrong_rules_break_the_claim() {
    let examples = all();
    for fault in BREAK {
        let rules = Rules { fault: Some(fault) };
        let breaks = |example: &Example, expected: &ExampleRun| {
            let checked = check(rules, &example.book, &example.script);
            let (ran, moves) = run(rules, example, expected);
            !holds(checked, ran, moves)
        };
        let mut runs = examples
            .iter()
            .flat_map(|e| e.runs.iter().map(move |r| (e, r)));
        assert!(runs.any(|(e, r)| breaks(e, r)), "{}", fault.says());
    }
}
