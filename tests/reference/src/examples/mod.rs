//! The examples of the papers as data: 01's peg list, the report's programs, one
//! small file for each row of 01's table, runs with lists for the sentences of 02
//! (a), divisions for those of 02 (b), emissions for those of 02 (c), level books
//! for those of 02 (d), flows for those of 02 (e), and figures of moves for those of 02
//! (f). Expected answers were typed from the papers, not computed. Where a paper gives
//! a program and its behaviour in words, the steps were counted by hand by the rules
//! of Figures 1 to 4.
//!
//! A program that the report shows to be insecure is refused with its levels;
//! where its behaviour is stated, a second example runs it with all levels low.

mod books;
mod emissions;
mod flow_files;
mod flows;
mod inputs;
mod listed;
mod move_bounds;
mod report;
mod rules;
pub mod script;
mod security;
mod table;

use crate::order::MOST_LEVELS;
use crate::{CheckAnswer, Flows, FlowsAnswer, RunAnswer};
use script::{Name, Names, Process};

/// A script file under a level book, and what the papers say of it.
#[derive(Clone, Debug)]
pub struct Example {
    pub name: &'static str,
    /// Where it stands in the papers.
    pub place: &'static str,
    pub book: Vec<u8>,
    pub script: Vec<u8>,
    pub expected_check: CheckAnswer,
    /// Where they were worked out.
    pub expected_flows: Option<FlowsAnswer>,
    pub runs: Vec<ExampleRun>,
}

/// A run of an example, and what the papers say of it.
#[derive(Clone, Debug)]
pub struct ExampleRun {
    pub reader: u32,
    pub values: Vec<i32>,
    pub limit: u32,
    pub list: Vec<u32>,
    /// The length of the log in words.
    pub log: usize,
    pub answer: RunAnswer,
    pub lines: Vec<[u32; 4]>,
    pub values_after: Vec<i32>,
}

/// All examples.
pub fn all() -> Vec<Example> {
    let mut all = listed::all();
    all.extend(report::all());
    all.extend(security::all());
    all.extend(rules::all());
    all.extend(table::all());
    all.extend(inputs::all());
    all.extend(emissions::all());
    all.extend(books::all());
    all.extend(flows::all());
    all.extend(flow_files::all());
    all.extend(move_bounds::all());
    all
}

/// The peg list's book: 'level 0 is L, 1 is H'.
const LOW_HIGH: [u8; 5] = [0x02, 0x00, 0x03, 0x00, 0x02];
const L: u8 = 0;
const H: u8 = 1;

/// The book of all levels, each above the one before.
pub(crate) fn every_level() -> Vec<u8> {
    let row = |i: usize| (u16::MAX << i).to_be_bytes();
    let rows = (0..MOST_LEVELS).flat_map(row);
    [MOST_LEVELS as u8].into_iter().chain(rows).collect()
}

/// The log of a run that says nothing else: 16 lines.
const LOG_WORDS: usize = 64;

/// How a run ends.
#[derive(Clone, Copy)]
struct End {
    ending: u32,
    steps: u32,
    instants: u32,
}

fn finished(steps: u32, instants: u32) -> End {
    End {
        ending: 0,
        steps,
        instants,
    }
}

fn spent(steps: u32, instants: u32) -> End {
    End {
        ending: 1,
        steps,
        instants,
    }
}

fn log_full(steps: u32, instants: u32) -> End {
    End {
        ending: 2,
        steps,
        instants,
    }
}

/// Signals a (0), b (1) and c (2), all L.
fn three_signals() -> (Names, Name, Name, Name) {
    let mut n = Names::new();
    let (a, b, c) = (n.signal(L), n.signal(L), n.signal(L));
    (n, a, b, c)
}

impl Example {
    /// A script under the peg list's book.
    fn script(name: &'static str, place: &'static str, names: Names, process: Process) -> Example {
        let script = script::file(names, &process);
        Example::bytes(name, place, &LOW_HIGH, script)
    }

    /// Any bytes. Expected answers are yet to be given.
    fn bytes(name: &'static str, place: &'static str, book: &[u8], script: Vec<u8>) -> Example {
        Example {
            name,
            place,
            book: book.to_vec(),
            script,
            expected_check: check_answer(0, 0, 0, 0),
            expected_flows: None,
            runs: Vec::new(),
        }
    }

    /// Accepted; with a while, unless a figure follows.
    fn accepted(mut self, write: u32, test: u32) -> Example {
        self.expected_check = check_answer(0, 0, write, test);
        self
    }

    /// Without a while: the script makes at most so many moves.
    fn moves(mut self, moves: u32) -> Example {
        self.expected_check.bounded = 1;
        self.expected_check.moves = moves;
        self
    }

    /// Refused by check, and so by run, whose own refusals have higher numbers.
    fn refused(mut self, number: u32, place: u32) -> Example {
        self.expected_check = check_answer(number, place, 0, 0);
        self.refused_run((0, &[], 0), number, place)
    }

    /// Data must be let flow from the first to the second level of each pair.
    fn flows(mut self, pairs: &[(usize, usize)]) -> Example {
        let mut flows = Flows::default();
        pairs.iter().for_each(|&(from, to)| flows[from] |= 1 << to);
        self.expected_flows = Some(flows_answer((0, 0), flows));
        self
    }

    /// Refused also where there is no book, with empty sets.
    fn flows_refused(mut self, number: u32, place: u32) -> Example {
        self.expected_flows = Some(flows_answer((number, place), Flows::default()));
        self
    }

    /// A run with (reader, values, limit) that is refused and changes nothing.
    fn refused_run(mut self, start: (u32, &[i32], u32), number: u32, place: u32) -> Example {
        let (reader, values, limit) = start;
        self.runs.push(ExampleRun {
            reader,
            values: values.to_vec(),
            limit,
            list: Vec::new(),
            log: LOG_WORDS,
            answer: run_answer((number, place), (0, 0, 0), 0),
            lines: Vec::new(),
            values_after: values.to_vec(),
        });
        self
    }

    /// A run for reader 0 with (values, limit) and a log of 16 lines.
    fn run(self, start: (&[i32], u32), end: End, lines: &[[u32; 4]], after: &[i32]) -> Example {
        let (values, limit) = start;
        self.run_with((0, values, limit, LOG_WORDS), end, lines, after)
    }

    /// A run with (reader, values, limit, words of the log).
    fn run_with(
        mut self,
        start: (u32, &[i32], u32, usize),
        end: End,
        lines: &[[u32; 4]],
        after: &[i32],
    ) -> Example {
        let (reader, values, limit, log) = start;
        let counts = (end.ending, end.steps, end.instants);
        self.runs.push(ExampleRun {
            reader,
            values: values.to_vec(),
            limit,
            list: Vec::new(),
            log,
            answer: run_answer((0, 0), counts, lines.len() as u32),
            lines: lines.to_vec(),
            values_after: after.to_vec(),
        });
        self
    }

    /// Gives the run before it a list, which is empty otherwise.
    fn list(mut self, list: &[u32]) -> Example {
        if let Some(run) = self.runs.last_mut() {
            run.list = list.to_vec();
        }
        self
    }
}

fn check_answer(number: u32, place: u32, write: u32, test: u32) -> CheckAnswer {
    CheckAnswer {
        number,
        place,
        write,
        test,
        bounded: 0,
        moves: 0,
    }
}

fn flows_answer(refusal: (u32, u32), flows: Flows) -> FlowsAnswer {
    FlowsAnswer {
        number: refusal.0,
        place: refusal.1,
        flows,
    }
}

fn run_answer(refusal: (u32, u32), counts: (u32, u32, u32), lines: u32) -> RunAnswer {
    RunAnswer {
        number: refusal.0,
        place: refusal.1,
        ending: counts.0,
        steps: counts.1,
        instants: counts.2,
        lines,
    }
}
