//! The interpreter against the examples of the papers.

use std::collections::BTreeSet;

use reference::examples::{all, Example, ExampleRun};
use reference::{check, flows, pairs, run, Rules, RunArguments};

/// What the log holds before a run; words after the last line keep it.
const UNTOUCHED: u32 = 0xDEAD_BEEF;

fn assert_run(example: &Example, expected: &ExampleRun) {
    let mut values = expected.values.clone();
    let mut log = vec![UNTOUCHED; expected.log];
    let arguments = RunArguments {
        reader: expected.reader,
        values: &mut values,
        limit: expected.limit,
        list: &expected.list,
        log: &mut log,
    };
    let answer = run(Rules::default(), &example.book, &example.script, arguments);
    let mut words = expected.lines.concat();
    words.resize(expected.log, UNTOUCHED);
    assert_eq!(answer, expected.answer, "{}", example.name);
    assert_eq!(log, words, "{}", example.name);
    assert_eq!(values, expected.values_after, "{}", example.name);
}

#[test]
fn check_gives_the_papers_answers() {
    for example in all() {
        let answer = check(Rules::default(), &example.book, &example.script);
        assert_eq!(answer, example.expected_check, "{}", example.name);
    }
}

#[test]
fn flows_gives_the_papers_answers() {
    for example in all() {
        let answer = flows(Rules::default(), &example.script);
        let expected = example.expected_flows.unwrap_or(answer);
        assert_eq!(answer, expected, "{}", example.name);
    }
}

#[test]
fn run_gives_the_papers_answers() {
    for example in all() {
        for expected in &example.runs {
            assert_run(&example, expected);
        }
    }
}

/// Whether a name is of kind 1 and has the owner 65535.
fn is_session_signal(script: &[u8], name: u32) -> bool {
    let at = 4 * name as usize;
    script[at] == 1 && script[at + 2..at + 4] == [0xFF, 0xFF]
}

/// Nothing makes a session signal absent before the instant ends, so that at most
/// one emission in an instant makes it present.
#[test]
fn a_session_signal_has_one_line_in_an_instant() {
    for example in all() {
        for run in &example.runs {
            let of_signal = |line: &&[u32; 4]| is_session_signal(&example.script, line[2]);
            let mut lines = run.lines.iter().filter(of_signal);
            let mut seen = BTreeSet::new();
            let once = lines.all(|line| seen.insert((line[1], line[2])));
            assert!(once, "{}", example.name);
        }
    }
}

/// Bit j of row i of a book: level i is at or below level j.
fn at_or_below(book: &[u8], i: u32, j: u32) -> bool {
    let row = 1 + 2 * i as usize;
    u16::from_be_bytes([book[row], book[row + 1]]) >> j & 1 == 1
}

/// The types that subsumption gives from check's W and T.
fn subsumed(example: &Example) -> Vec<(u32, u32)> {
    let (book, expected) = (&example.book, example.expected_check);
    let count = u32::from(book[0]);
    let pairs = (0..count).flat_map(|w| (0..count).map(move |t| (w, t)));
    let below = |&(w, t): &(u32, u32)| {
        at_or_below(book, w, expected.write) && at_or_below(book, expected.test, t)
    };
    pairs.filter(below).collect()
}

/// Where check accepts, Figure 5 derives the types subsumed by check's pair and
/// no others; where check gives 11 it derives none.
#[test]
fn figure_5_agrees_with_check() {
    for example in all() {
        let expected = match example.expected_check.number {
            0 => Some(subsumed(&example)),
            11 => Some(Vec::new()),
            _ => None,
        };
        let derived = pairs(Rules::default(), &example.book, &example.script);
        assert_eq!(derived, expected, "{}", example.name);
    }
}
