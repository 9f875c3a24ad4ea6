//! What the flows of the cases show, for the coverage: a script that needs nothing, or in which no wrong
//! rule would show, tests little.

use crate::coverage::{FLOOR, USUAL};
use crate::flow_claims;
use crate::outcome::Outcome;
use cases::file::File;
use cases::order::{Order, MOST_LEVELS};
use cases::Case;
use reference::{Fault, Rules};

/// What the sets of a script show, with its floor, and a wrong rule by which they would be others.
const SHOWN: [(&str, u64, Fault); 18] = [
    (
        "a pair by an assigned expression alone",
        FLOOR,
        Fault::AssignedFlowUnlisted,
    ),
    (
        "a pair by a let's expression alone",
        FLOOR,
        Fault::LetFlowUnlisted,
    ),
    (
        "a pair by a right operand alone",
        FLOOR,
        Fault::RightOperandUnlisted,
    ),
    (
        "a pair by an if and its first branch alone",
        FLOOR,
        Fault::FirstBranchUnlisted,
    ),
    (
        "a pair by an if and its second branch alone",
        FLOOR,
        Fault::SecondBranchUnlisted,
    ),
    ("a pair by a when alone", FLOOR, Fault::WhenFlowUnlisted),
    (
        "a pair by a watching alone",
        FLOOR,
        Fault::WatchingFlowUnlisted,
    ),
    (
        "a pair by a while's expression alone",
        FLOOR,
        Fault::WhileConditionUnlisted,
    ),
    (
        "a pair by a test in a while's body alone",
        FLOOR,
        Fault::WhileBodyUnlisted,
    ),
    (
        "a pair by a sequence alone, none backward",
        FLOOR,
        Fault::SequenceListedReversed,
    ),
    (
        "a pair by a parallel alone, forth",
        FLOOR,
        Fault::ParallelListedBack,
    ),
    (
        "a pair by a parallel alone, back",
        FLOOR,
        Fault::ParallelListedForth,
    ),
    (
        "a pair by a test in a branch",
        FLOOR,
        Fault::BranchTestsForgotten,
    ),
    ("a pair to an owned name", FLOOR, Fault::OwnedIsNoWrite),
    ("no pair to the name of a let", FLOOR, Fault::LetIsWrite),
    ("no pair to the name of a local", FLOOR, Fault::LocalIsWrite),
    (
        "no pair from an assigned register to a later write",
        FLOOR,
        Fault::AssignmentIsTest,
    ),
    (
        "two pairs without the one that follows",
        FLOOR,
        Fault::FlowsClosed,
    ),
];

/// What is seen in the sets, and beside check's answer, with its floor.
const SEEN: [(&str, u64); 11] = [
    ("no pair", USUAL / 10),
    ("a pair", USUAL / 5),
    ("ten pairs or more", USUAL / 100),
    ("two levels both ways", USUAL / 50),
    ("a pair from the last level", FLOOR),
    ("a pair to the last level", FLOOR),
    ("a name of the last level", FLOOR),
    ("pairs, all of them in the book", USUAL / 20),
    ("several pairs, one of them absent from the book", FLOOR),
    ("given, while 6 is given under the book", FLOOR),
    ("given, while the book is refused", FLOOR),
];

/// Refused by 6 at a name whose level is past the last.
const PAST_LAST: (&str, u64) = ("refused, a level past the last", FLOOR);

fn refused(number: u32) -> String {
    format!("refused by {number}")
}

/// Every note, with its floor.
pub fn floors() -> Vec<(String, u64)> {
    let shown = SHOWN.map(|(note, floor, _)| (note.to_string(), floor));
    let seen = SEEN.map(|(note, floor)| (note.to_string(), floor));
    let refusals = (4..=10).map(|number| (refused(number), FLOOR));
    let past_last = (PAST_LAST.0.to_string(), PAST_LAST.1);
    let all = seen.into_iter().chain(shown).chain(refusals);
    all.chain([past_last]).collect()
}

/// Which of the notes hold of the flows of a case.
pub fn reached(case: &Case, outcome: &Outcome) -> Vec<String> {
    let file = File::read(&case.script).unwrap_or_default();
    match outcome.flows.refusal() {
        0 => seen(case, outcome, &file),
        number => {
            let place = outcome.flows.out[1] as usize;
            let name = file.names.get(place).filter(|_| number == 6);
            let past_last = name.is_some_and(|name| usize::from(name.level) >= MOST_LEVELS);
            let past_last = past_last.then_some(PAST_LAST.0.to_string());
            [refused(number)].into_iter().chain(past_last).collect()
        }
    }
}

fn seen(case: &Case, outcome: &Outcome, file: &File) -> Vec<String> {
    let flows = &outcome.flows;
    let pairs: Vec<(usize, usize)> = flows.pairs().collect();
    let last = MOST_LEVELS - 1;
    // Only 0 and 11 say that the book passes and has the script's levels.
    let absent = match outcome.check[0] {
        0 | 11 => flow_claims::absent(&Order::read(&case.book), flows),
        _ => 0,
    };
    let has_level = |level: usize| {
        file.names
            .iter()
            .any(|name| usize::from(name.level) == level)
    };
    let reached: [bool; SEEN.len()] = [
        pairs.is_empty(),
        !pairs.is_empty(),
        pairs.len() >= 10,
        pairs.iter().any(|&(i, j)| pairs.contains(&(j, i))),
        pairs.iter().any(|&(i, _)| i == last),
        pairs.iter().any(|&(_, j)| j == last),
        has_level(last),
        outcome.accepted() && !pairs.is_empty(),
        absent == 1 && pairs.len() > 1,
        outcome.check[0] == 6,
        matches!(outcome.check[0], 1..=3),
    ];
    let notes = SEEN.iter().zip(reached).filter(|(_, reached)| *reached);
    notes.map(|((note, _), _)| note.to_string()).collect()
}

/// Which wrong rules would show in the sets of a case. The second interpreter finds them again by each.
pub fn shown(case: &Case, outcome: &Outcome) -> Vec<String> {
    let shows = |fault: Fault| {
        let rules = Rules { fault: Some(fault) };
        let wrong = reference::flows(rules, &case.script);
        wrong.flows[..] != outcome.flows.sets[..]
    };
    let notes = SHOWN.iter().filter(|(_, _, fault)| shows(*fault));
    notes.map(|(note, _, _)| note.to_string()).collect()
}

#[cfg(test)]
mod tests {
    use super::*;
    use crate::engine::Reference;
    use crate::outcome::outcome;
    use cases::file;
    use cases::order::chain;
    use cases::tree::*;
    use cases::Rng;

    /// What a process over two registers and a signal of three levels shows under a chain of `count` levels.
    fn notes(levels: [usize; 3], root: Process, count: usize) -> Vec<String> {
        let name = |place: usize| Name {
            signal: place == 2,
            level: levels[place],
        };
        let script = Script {
            names: (0..3).map(name).collect(),
            root,
        };
        let case = Case {
            book: chain(count).book(),
            script: file::write(&script, &mut Rng::new(1)).bytes(),
            reader: 0,
            values: vec![0; 3],
            limit: 9,
            list: vec![],
            log: 0,
        };
        let right = outcome(&Reference(Rules::default()), &case).unwrap();
        [reached(&case, &right), shown(&case, &right)].concat()
    }

    fn read(name: usize) -> Expression {
        Expression::Register(name)
    }

    #[test]
    fn the_notes_of_single_scripts() {
        let (by, inside) = (SHOWN[0].0, SEEN[7].0);
        let assigns = |to, from| Process::Assign(to, read(from));
        assert_eq!(notes([1, 2, 0], Process::Nil, 3), ["no pair"]);
        assert_eq!(notes([1, 2, 0], assigns(1, 0), 3), ["a pair", inside, by]);
        assert_eq!(notes([1, 2, 0], assigns(0, 1), 3), ["a pair", by]);
        let waits = when(2, assigns(1, 0));
        let guard = SHOWN[5].0;
        assert_eq!(notes([1, 2, 0], waits, 3), ["a pair", inside, by, guard]);
        let both = sequence(assigns(1, 0), assigns(0, 1));
        assert_eq!(
            notes([1, 2, 0], both, 2),
            ["a pair", SEEN[3].0, SEEN[9].0, by]
        );
        assert_eq!(
            notes([MOST_LEVELS, 2, 0], Process::Nil, 3),
            ["refused by 6", PAST_LAST.0]
        );
    }
}
