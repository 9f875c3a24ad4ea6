//! The planted faults: each changes an answer on some example of the papers.

use reference::examples::{all, Example, ExampleRun};
use reference::{check, flows, run_counted, Fault, Rules, RunArguments};

fn run_changes(rules: Rules, example: &Example, expected: &ExampleRun) -> bool {
    let mut values = expected.values.clone();
    let mut log = vec![0; expected.log];
    let arguments = RunArguments {
        reader: expected.reader,
        values: &mut values,
        limit: expected.limit,
        list: &expected.list,
        log: &mut log,
    };
    let (answer, moves) = run_counted(rules, &example.book, &example.script, arguments);
    let right = expected.answer;
    let mut words = expected.lines.concat();
    words.resize(expected.log, 0);
    let miscounts = moves.all != right.steps - right.instants;
    answer != right || miscounts || values != expected.values_after || log != words
}

fn changes(rules: Rules, example: &Example) -> bool {
    let answer = check(rules, &example.book, &example.script);
    let needs = flows(rules, &example.script);
    let runs = &example.runs;
    answer != example.expected_check
        || example.expected_flows.is_some_and(|right| needs != right)
        || runs.iter().any(|r| run_changes(rules, example, r))
}

#[test]
fn every_fault_is_found() {
    let examples = all();
    for &fault in Fault::ALL {
        let rules = Rules { fault: Some(fault) };
        let found = examples.iter().any(|example| changes(rules, example));
        assert!(found, "no example finds that {}", fault.says());
    }
}
