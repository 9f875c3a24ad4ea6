//! A second interpreter of station scripts, written from the papers and not from
//! the code: the scope paper (called 01 in the comments), the changes of its rules
//! (called 02: (a) to (f)) and report RR-5594 (called the report). Where 01
//! leaves refusals 4 to 10 and 13 open it takes the readings of docs/DECISIONS.md.
//! It checks a script file against a level book, runs it by rewriting trees by the
//! report's Figures 1 to 4, and derives the types of Figure 5 by brute force. A
//! flag of the tests plants one fault in one of its rules.

#![forbid(unsafe_code)]

mod arguments;
mod book;
mod check;
mod configuration;
mod emissions;
pub mod examples;
mod fault;
mod file;
#[cfg(test)]
mod flow_claims;
mod flows;
mod inputs;
mod instant;
mod levels;
mod log;
mod move_bound;
mod moves;
pub mod nearest;
mod order;
#[cfg(test)]
mod properties;
mod reach;
mod refusal;
mod runner;
mod shape;
pub mod small_scripts;
mod suspension;
mod sweep;
#[cfg(test)]
mod sweep_contract;
mod tree;
mod typing;
mod uses;
mod value;

pub use fault::{Fault, Rules};
pub use flows::Flows;
use move_bound::{bound_of_refused, move_bound, MoveBound};
use refusal::Refusal;
use tree::Process;

/// What `check` returns (01, 'Calls', and 02, request (f)).
#[derive(Clone, Copy, Debug, PartialEq, Eq)]
pub struct CheckAnswer {
    pub number: u32,
    pub place: u32,
    pub write: u32,
    pub test: u32,
    /// 1, or 0 where there is a while.
    pub bounded: u32,
    /// The most moves of a run; 0 where not bounded.
    pub moves: u32,
}

/// What `flows` returns (02, request (e)).
#[derive(Clone, Copy, Debug, PartialEq, Eq)]
pub struct FlowsAnswer {
    pub number: u32,
    pub place: u32,
    pub flows: Flows,
}

/// What `run` takes beside the level book and the script file: 'a reader's level,
/// values, a step limit and a log' (01, 'Calls'), and 'a list of pairs of 32-bit
/// words' (02, request (a)).
pub struct RunArguments<'a> {
    pub reader: u32,
    pub values: &'a mut [i32],
    pub limit: u32,
    pub list: &'a [u32],
    pub log: &'a mut [u32],
}

/// What `run` returns (01, 'Calls').
#[derive(Clone, Copy, Debug, PartialEq, Eq)]
pub struct RunAnswer {
    pub number: u32,
    pub place: u32,
    pub ending: u32,
    pub steps: u32,
    pub instants: u32,
    pub lines: u32,
}

/// The moves of a run, each counted where it is made.
#[derive(Clone, Copy, Debug, Default, PartialEq, Eq)]
pub struct Moves {
    pub all: u32,
    /// Those by which the parts of a parallel trade places.
    pub trades: u32,
}

impl CheckAnswer {
    /// 01: 'A refusal's other returned numbers are 0'.
    fn refused(refusal: Refusal, bound: MoveBound) -> Self {
        CheckAnswer {
            number: refusal.number,
            place: refusal.place,
            write: 0,
            test: 0,
            bounded: bound.bounded,
            moves: bound.moves,
        }
    }
}

impl RunAnswer {
    /// 01: 'A refusal's other returned numbers are 0'.
    fn refused(refusal: Refusal) -> Self {
        RunAnswer {
            number: refusal.number,
            place: refusal.place,
            ending: 0,
            steps: 0,
            instants: 0,
            lines: 0,
        }
    }
}

/// Checks a script file under a level book: refusals 1 to 11, or W and T, and the
/// most moves.
pub fn check(rules: Rules, book: &[u8], script: &[u8]) -> CheckAnswer {
    match check::accepted(rules, book, script) {
        Err(refusal) => {
            let bound = bound_of_refused(rules, refusal, book, script);
            CheckAnswer::refused(refusal, bound)
        }
        Ok(accepted) => {
            let script = Process::of(&accepted.file, accepted.file.script());
            let MoveBound { bounded, moves } = move_bound(rules, &script);
            CheckAnswer {
                number: 0,
                place: 0,
                write: accepted.levels.write as u32,
                test: accepted.levels.test as u32,
                bounded,
                moves,
            }
        }
    }
}

/// What a script file would need, without a book: refusals 4 to 10, or for each level
/// the set of other levels to which data must be let flow.
pub fn flows(rules: Rules, script: &[u8]) -> FlowsAnswer {
    match flows::flows(rules, script) {
        Err(refusal) => FlowsAnswer {
            number: refusal.number,
            place: refusal.place,
            flows: flows::sets_of_refused(rules, refusal, script),
        },
        Ok(flows) => FlowsAnswer {
            number: 0,
            place: 0,
            flows,
        },
    }
}

/// Runs a script: refusals 1 to 15, or the steps, with the lines in `log` and
/// the state at the end in `values`. A refusal leaves both untouched.
pub fn run(rules: Rules, book: &[u8], script: &[u8], arguments: RunArguments) -> RunAnswer {
    run_counted(rules, book, script, arguments).0
}

/// Runs a script, and counts its moves; a refused run has none.
pub fn run_counted(
    rules: Rules,
    book: &[u8],
    script: &[u8],
    arguments: RunArguments,
) -> (RunAnswer, Moves) {
    let answer = check::accepted(rules, book, script).and_then(|accepted| {
        arguments::refusals(rules, &accepted, &arguments)?;
        Ok(runner::run(rules, &accepted, arguments))
    });
    answer.unwrap_or_else(|refusal| (RunAnswer::refused(refusal), Moves::default()))
}

/// Every pair (W, T) that Figure 5 derives for the script, subsumption
/// included, in ascending order; none where refusals 1 to 10 apply.
pub fn pairs(rules: Rules, book: &[u8], script: &[u8]) -> Option<Vec<(u32, u32)>> {
    let (book, file) = check::well_formed(rules, book, script).ok()?;
    Some(typing::pairs(&book, &file))
}
