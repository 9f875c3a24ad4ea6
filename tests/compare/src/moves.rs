//! What the figures of the cases and the moves of their runs show, for the coverage: a script that has no figure, or
//! that comes nowhere near it, tests little.

use crate::coverage::{FLOOR, USUAL};
use crate::engine::check_words;
use crate::outcome::Outcome;
use cases::file::File;
use cases::Case;
use reference::{Fault, Moves, Rules, RunArguments};

const WHILE: u8 = 4;
const PARALLEL: u8 = 10;

/// What check says of a script, with its floor.
const SAID: [(&str, u64); 9] = [
    ("a figure", USUAL / 5),
    ("none, for a while", USUAL / 5),
    ("none, for a while that is not the whole script", USUAL / 10),
    ("none, for a while beside parallels", USUAL / 20),
    ("a figure of 0", FLOOR),
    ("a figure of 1,000 or more", FLOOR),
    ("a figure with one parallel", USUAL / 30),
    ("a figure with several parallels", USUAL / 60),
    ("a figure with ten parallels or more", FLOOR),
];

/// What check says of a script, with its floor, and a wrong rule by which it would say something else.
const SHOWN: [(&str, u64, Fault); 10] = [
    (
        "nil nodes that don't count",
        USUAL / 60,
        Fault::NilIsCounted,
    ),
    (
        "parallels that are not inside each other",
        FLOOR,
        Fault::ParallelsByDepth,
    ),
    (
        "nodes in both branches of an if",
        FLOOR,
        Fault::LargerBranchCounts,
    ),
    ("a figure past a byte", SELDOM, Fault::FigureInOneByte),
    (
        "a figure with parallels, not less by them",
        USUAL / 60,
        Fault::FigureLessParallels,
    ),
    ("a while in a branch", FLOOR, Fault::WhileInBranchOverlooked),
    (
        "a while in a second part",
        FLOOR,
        Fault::WhileInSecondPartOverlooked,
    ),
    (
        "a while that never runs",
        SELDOM,
        Fault::DeadWhileOverlooked,
    ),
    (
        "a figure that refusal 11 takes away",
        FLOOR,
        Fault::FigureKeptByRefusal,
    ),
    (
        "no figure of a refused script",
        USUAL / 60,
        Fault::RefusedIsBounded,
    ),
];

/// Few scripts have a while that only tests a constant, or many nodes and no while.
const SELDOM: u64 = 25;

/// What a run of a script without a while shows, with its floor.
const RAN: [(&str, u64); 13] = [
    ("a run that has a figure", USUAL / 6),
    ("finished, with a parallel", USUAL / 60),
    ("a trade", USUAL / 60),
    ("three trades or more", FLOOR),
    ("ten trades or more", FLOOR),
    ("more moves than nodes", FLOOR),
    ("half as many moves again as nodes", FLOOR),
    ("the figure met, ten or more", FLOOR),
    ("half of the figure or more, with a parallel", USUAL / 60),
    ("seven tenths of the figure or more, with a parallel", FLOOR),
    ("more instants than moves", USUAL / 60),
    ("a hundred instants or more", FLOOR),
    ("spent, moves still to come", FLOOR),
];

/// Every note, with its floor.
pub fn floors() -> Vec<(&'static str, u64)> {
    let shown = SHOWN.map(|(note, floor, _)| (note, floor));
    SAID.into_iter().chain(shown).chain(RAN).collect()
}

/// Nodes other than nil, parallel nodes, and whether there is a while.
struct Nodes {
    other_than_nil: u32,
    parallel: u32,
    holds_while: bool,
    is_while: bool,
}

impl Nodes {
    fn of(file: &File) -> Nodes {
        let of_kind = |is: &dyn Fn(u8) -> bool| {
            let nodes = file.nodes.iter().filter(|node| is(node.kind));
            nodes.count() as u32
        };
        Nodes {
            other_than_nil: of_kind(&|kind| kind != 0),
            parallel: of_kind(&|kind| kind == PARALLEL),
            holds_while: of_kind(&|kind| kind == WHILE) > 0,
            is_while: file.nodes.last().is_some_and(|root| root.kind == WHILE),
        }
    }
}

fn notes<const N: usize>(
    notes: [(&'static str, u64); N],
    reached: [bool; N],
) -> impl Iterator<Item = &'static str> {
    let reached = notes
        .into_iter()
        .zip(reached)
        .filter(|(_, reached)| *reached);
    reached.map(|((note, _), _)| note)
}

/// Which notes hold of what check says of an accepted script.
pub fn said(case: &Case, outcome: &Outcome) -> Vec<&'static str> {
    let nodes = Nodes::of(&File::read(&case.script).unwrap_or_default());
    let (bounded, figure) = (outcome.check[4] == 1, outcome.check[5]);
    let none = !bounded && nodes.holds_while;
    let reached = [
        bounded,
        none,
        none && !nodes.is_while,
        none && nodes.parallel > 0,
        bounded && figure == 0,
        figure >= 1000,
        bounded && nodes.parallel == 1,
        bounded && nodes.parallel > 1,
        bounded && nodes.parallel >= 10,
    ];
    notes(SAID, reached).collect()
}

/// Which wrong rules would show in what check says. The second interpreter checks the script again by each.
pub fn shown(case: &Case, outcome: &Outcome) -> Vec<&'static str> {
    let shows = |fault: Fault| {
        let rules = Rules { fault: Some(fault) };
        let wrong = reference::check(rules, &case.book, &case.script);
        check_words(wrong)[..] != outcome.check
    };
    let notes = SHOWN.iter().filter(|(_, _, fault)| shows(*fault));
    notes.map(|(note, _, _)| *note).collect()
}

/// Which notes hold of a run that was not refused, of a script that has a figure. The second interpreter runs it again
/// and counts the trades.
pub fn ran(case: &Case, outcome: &Outcome, figure: u32) -> Vec<&'static str> {
    let nodes = Nodes::of(&File::read(&case.script).unwrap_or_default());
    let (k, parallel) = (nodes.other_than_nil, nodes.parallel > 0);
    let Moves { all, trades } = moves(case);
    let instants = outcome.instants();
    let reached = [
        true,
        parallel && outcome.ending() == 0,
        trades > 0,
        trades >= 3,
        trades >= 10,
        all > k,
        all >= k + k / 2 && k > 1,
        all == figure && figure >= 10,
        parallel && 2 * all >= figure,
        parallel && 10 * all >= 7 * figure,
        all > 0 && instants > all,
        all > 0 && instants >= 100,
        outcome.ending() == 1 && all > 0 && trades > 0,
    ];
    notes(RAN, reached).collect()
}

/// The moves of a run.
fn moves(case: &Case) -> Moves {
    let arguments = RunArguments {
        reader: case.reader,
        values: &mut case.values.clone(),
        limit: case.limit,
        list: &case.list,
        log: &mut vec![0; case.log],
    };
    reference::run_counted(Rules::default(), &case.book, &case.script, arguments).1
}

#[cfg(test)]
mod tests {
    use super::*;
    use crate::engine::Reference;
    use crate::outcome::outcome;
    use cases::tree::*;
    use cases::turns::in_turn;
    use cases::{file, Rng};

    /// What a script of signals shows whose first is present at the start.
    fn seen(script: &Script, list: Vec<u32>) -> [Vec<&'static str>; 3] {
        let mut values = vec![0; script.names.len()];
        values[0] = 1;
        let case = Case {
            book: vec![1, 0, 1],
            script: file::write_names_in_order(script, &mut Rng::new(1)).bytes(),
            reader: 0,
            values,
            limit: 99,
            list,
            log: 8,
        };
        let right = outcome(&Reference(Rules::default()), &case).unwrap();
        let ran = right.figure().map(|figure| ran(&case, &right, figure));
        [
            said(&case, &right),
            shown(&case, &right),
            ran.unwrap_or_default(),
        ]
    }

    fn one_signal(root: Process) -> Script {
        let names = vec![Name {
            signal: true,
            level: 0,
        }];
        Script { names, root }
    }

    #[test]
    fn the_notes_of_single_scripts() {
        let [said, shown, ran] = seen(&one_signal(Process::Nil), vec![]);
        assert_eq!(said, ["a figure", "a figure of 0"]);
        assert_eq!(shown, ["nil nodes that don't count"]);
        assert_eq!(ran, ["a run that has a figure"]);
        let never = while_do(Expression::Constant(0), Process::Emit(0));
        let [said, shown, ran] = seen(&one_signal(sequence(Process::Emit(0), never)), vec![]);
        assert_eq!(said, [SAID[1].0, SAID[2].0]);
        assert_eq!(
            shown,
            ["a while in a second part", "a while that never runs"]
        );
        assert!(ran.is_empty());
    }

    #[test]
    fn the_notes_of_two_threads_in_turn() {
        let turns = in_turn(1, 8);
        let [said, shown, ran] = seen(&turns.script, turns.list);
        assert_eq!(said, ["a figure", "a figure with one parallel"]);
        assert_eq!(shown, [SHOWN[0].0, SHOWN[4].0]);
        let expected = [0, 1, 2, 3, 5, 6, 8, 9].map(|note| RAN[note].0);
        assert_eq!(ran, expected);
    }
}
