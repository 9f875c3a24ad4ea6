//! The checks that the command runs, each with its line in the report.

use crate::coverage::Coverage;
use crate::demand_three::{self, Vary};
use crate::engine::{Engine, Raw, Reference, Wrapper};
use crate::move_claims;
use crate::needed_books;
use crate::needed_tally;
use crate::report::Report;
use crate::small_books::Books;
use crate::tally::Tally;
use crate::{examples, faults, long_runs, near_figure, small_lists, small_loops, sweep};
use reference::{Fault, Rules};

/// Faults that let a reader see what is sealed; demand 3 must not hold under any of them, where the runs
/// differ in this. Lists alone are enough where a sealed signal is tested, or where steps are counted by it.
const LEAKS: [(Fault, Vary); 17] = [
    (Fault::WhileAgainstConditionOnly, Vary::StartsAndLists),
    (Fault::ParallelOneWay, Vary::StartsAndLists),
    (Fault::LetFlowUnchecked, Vary::StartsAndLists),
    (Fault::IfJoinsWrites, Vary::StartsAndLists),
    (Fault::WatchingFlowUnchecked, Vary::StartsAndLists),
    (Fault::SequenceReversed, Vary::StartsAndLists),
    (Fault::SecondOperandIgnored, Vary::StartsAndLists),
    (Fault::LetWritesLine, Vary::StartsAndLists),
    (Fault::EveryLevelLogged, Vary::StartsAndLists),
    (Fault::RepeatTakesNoStep, Vary::StartsAndLists),
    (Fault::WhenFlowUnchecked, Vary::Lists),
    (Fault::WatchingFlowUnchecked, Vary::Lists),
    (Fault::SequenceReversed, Vary::Lists),
    (Fault::ParallelOneWay, Vary::Lists),
    (Fault::WhileAgainstConditionOnly, Vary::Lists),
    (Fault::ListedTakesStep, Vary::Lists),
    (Fault::RepeatTakesNoStep, Vary::Lists),
];

/// Faults of flows, and of check's needs: under each, refusal 11 is not given as 02 (e) says of the
/// listed pairs.
const WRONG_NEEDS: [Fault; 33] = [
    Fault::AssignedFlowUnlisted,
    Fault::LetFlowUnlisted,
    Fault::RightOperandUnlisted,
    Fault::FirstBranchUnlisted,
    Fault::SecondBranchUnlisted,
    Fault::WhenFlowUnlisted,
    Fault::WatchingFlowUnlisted,
    Fault::WhileConditionUnlisted,
    Fault::WhileBodyUnlisted,
    Fault::SequenceListedReversed,
    Fault::SequenceListedBothWays,
    Fault::ParallelListedForth,
    Fault::ParallelListedBack,
    Fault::BranchTestsForgotten,
    Fault::ConditionForgotten,
    Fault::GuardForgotten,
    Fault::AssignmentIsTest,
    Fault::LetIsTest,
    Fault::AssignmentIsNoWrite,
    Fault::EmissionIsNoWrite,
    Fault::OwnedIsNoWrite,
    Fault::LetIsWrite,
    Fault::LocalIsWrite,
    Fault::FlowsTransposed,
    Fault::SecondOperandIgnored,
    Fault::NilWritesBottom,
    Fault::LetFlowUnchecked,
    Fault::IfJoinsWrites,
    Fault::WatchingFlowUnchecked,
    Fault::WhenFlowUnchecked,
    Fault::WhileAgainstConditionOnly,
    Fault::SequenceReversed,
    Fault::ParallelOneWay,
];

/// Wrong figures, wrong counts and wrong steps: under each, some run makes more moves than 02 (f) says, or steps and
/// instants do not give its moves.
const WRONG_MOVES: [Fault; 23] = [
    Fault::ParallelIsNoNode,
    Fault::ParallelsForgotten,
    Fault::ParallelsWithoutOne,
    Fault::OneAddedToProduct,
    Fault::FigureOneLess,
    Fault::ParallelsCountAsOne,
    Fault::FigureInOneByte,
    Fault::FirstBranchCounts,
    Fault::SecondBranchCounts,
    Fault::WhileHasFigure,
    Fault::NestedWhileOverlooked,
    Fault::WhileInBranchOverlooked,
    Fault::WhileInSecondPartOverlooked,
    Fault::FigureOfWhileKept,
    Fault::WhileIsBoundedByNothing,
    Fault::FigureKeptByRefusal,
    Fault::RefusedIsBounded,
    Fault::ChangesAreMoves,
    Fault::TradesAreNoMoves,
    Fault::ListedTakesStep,
    Fault::TradesWithSuspended,
    Fault::NilLeftPartTrades,
    Fault::AbsentWhenMoves,
];

/// The most cases that are tried under wrong moves.
const MOVES_CASES: u64 = 20_000;

/// The number of scripts whose flows are asked for beside every book of few levels.
const SCRIPTS: u64 = 1000;

/// The most pairs that are tried under a leak.
const LEAK_PAIRS: u64 = 60_000;

pub fn examples(report: &mut Report) {
    for example in reference::examples::all() {
        let result = examples::holds(&example).map(|()| format!("({})", example.place));
        report.line(&format!("example {}", example.name), result);
    }
}

/// The comparison, and the floors of what it reached.
pub fn comparison(report: &mut Report, count: u64, seed: u64) {
    let coverage = match sweep::sweep(count, seed) {
        Ok(coverage) => coverage,
        Err(difference) => return report.line("comparison", Err(difference.to_string())),
    };
    report.table(&coverage);
    report.line("comparison", Ok(format!("of {count} cases, 0 differences")));
    report.line(
        "coverage",
        reached(coverage.missing(), Coverage::floor_count()),
    );
}

pub fn long_runs(report: &mut Report) {
    for (name, result) in long_runs::compare_all() {
        report.line(&format!("long run: {name}"), result.map(|()| String::new()));
    }
}

pub fn small_lists(report: &mut Report) {
    let compared = |result: Result<u64, String>| result.map(|runs| format!("in {runs} runs"));
    let words = compared(small_lists::compare_words());
    report.line("every list of up to five small words", words);
    let pairs = compared(small_lists::compare_pairs());
    report.line("every list of three early pairs", pairs);
}

pub fn small_loops(report: &mut Report) {
    let loops = small_loops::compare_all().map(|runs| format!("in {runs} runs"));
    report.line("every loop of three small acts", loops);
}

/// Demand 3 of the library, by both ways in, and its floors.
pub fn demand_three(report: &mut Report, count: u64, seed: u64) {
    let sweep = |engine: &dyn Engine, count, seed| {
        demand_three::sweep(engine, Vary::StartsAndLists, count, seed)
    };
    let both = sweep(&Raw, count, seed)
        .and_then(|tally| sweep(&Wrapper, count / 4, seed + 1).map(|_| tally));
    match both {
        Ok(tally) => {
            report.table(&tally);
            report.line(
                "demand three",
                Ok(format!("holds of {} pairs", tally.pairs)),
            );
            report.line(
                "demand three, coverage",
                reached(tally.missing(), Tally::FLOORS),
            );
        }
        Err(violation) => report.line("demand three", Err(violation.to_string())),
    }
}

/// Under a leak some pair must break demand 3, else the test shows nothing. So must some pair of runs with
/// lists that disagree, which is no leak: the reader may see the signal that one of them leaves out.
pub fn leaks(report: &mut Report, seed: u64) {
    let mut breaks = |name: &str, engine: &dyn Engine, vary| {
        let result = match demand_three::sweep(engine, vary, LEAK_PAIRS, seed) {
            Err(violation) => Ok(format!("breaks it, seen at pair {}", violation.pairs)),
            Ok(tally) => Err(format!("not seen in {} pairs", tally.pairs)),
        };
        report.line(&format!("demand three {name}"), result);
    };
    for (fault, vary) in LEAKS {
        let by = match vary {
            Vary::Lists => ", by lists alone",
            _ => "",
        };
        let engine = Reference(Rules { fault: Some(fault) });
        breaks(&format!("under '{}'{by}", fault.says()), &engine, vary);
    }
    breaks("with lists that disagree", &Raw, Vary::SeenSignal);
}

/// What 02 (e) says of flows and check, under every book of few levels: of the library and of the second
/// interpreter, and not of the second interpreter with a wrong need.
pub fn needed_books(report: &mut Report, seed: u64) {
    let books = Books::all();
    let sweep = |engine: &dyn Engine| needed_books::sweep(engine, &books, SCRIPTS, seed);
    let reference = Reference(Rules::default());
    for (name, engine) in [("library", &Raw as &dyn Engine), ("reference", &reference)] {
        match sweep(engine) {
            Ok(tally) => {
                report.table(&tally);
                let says = format!("holds of {SCRIPTS} scripts under every book of few levels");
                report.line(&format!("flows and refusal 11, {name}"), Ok(says));
                let floors = reached(tally.missing(), needed_tally::Tally::FLOORS);
                report.line(&format!("flows and refusal 11, {name}, coverage"), floors);
            }
            Err(violation) => {
                let says = Err(violation.to_string());
                report.line(&format!("flows and refusal 11, {name}"), says);
            }
        }
    }
    for fault in WRONG_NEEDS {
        let result = match sweep(&Reference(Rules { fault: Some(fault) })) {
            Err(violation) => Ok(format!("breaks it, seen at script {}", violation.script)),
            Ok(_) => Err(format!("not seen in {SCRIPTS} scripts")),
        };
        report.line(
            &format!("flows and refusal 11 under '{}'", fault.says()),
            result,
        );
    }
}

/// Scripts that come near the figure of 02 (f), every small script, and that the claim fails under wrong rules. The
/// comparison has it of the library and of the second interpreter, case by case.
pub fn moves(report: &mut Report, seed: u64) {
    let nearest = near_figure::nearest().map(|scripts| format!("of {scripts} small scripts"));
    report.line("the most moves", nearest);
    let turns = near_figure::turns().map(|scripts| format!("in {scripts} scripts"));
    report.line("threads that take turns", turns);
    let small = near_figure::small_scripts().map(|runs| format!("in {runs} runs"));
    report.line("every script of up to three nodes", small);
    for fault in WRONG_MOVES {
        let engine = Reference(Rules { fault: Some(fault) });
        let result = match move_claims::first_broken(&engine, MOVES_CASES, seed) {
            Some(number) => Ok(format!("breaks it, seen at case {number}")),
            None => Err(format!("not seen in {MOVES_CASES} cases")),
        };
        report.line(
            &format!("at most k × (p + 1) moves under '{}'", fault.says()),
            result,
        );
    }
}

pub fn faults(report: &mut Report, seed: u64) {
    for finding in faults::find_all(seed) {
        let result = match finding.found {
            Some(number) => Ok(format!("found by case {number}")),
            None => Err(format!("not found in {} cases", faults::MOST_CASES)),
        };
        report.line(&format!("fault '{}'", finding.fault.says()), result);
    }
}

fn reached(missing: Vec<String>, floors: usize) -> Result<String, String> {
    match missing.is_empty() {
        true => Ok(format!("reached all {floors} floors")),
        false => Err(format!("below the floor: {}", missing.join("; "))),
    }
}
