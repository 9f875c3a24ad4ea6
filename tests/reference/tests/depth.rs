//! The deepest trees that a file can hold, on a thread with little stack, and
//! long runs. Tests have 2 MiB by default; these have a quarter of it.

use reference::examples::script::*;
use reference::{check, flows, pairs, run, Rules, RunAnswer, RunArguments};

const STACK: usize = 512 * 1024;
const BOOK: [u8; 5] = [2, 0, 3, 0, 2];
const LIMIT: u32 = 3000;

/// As many nodes around a nil as a file can hold, `nodes` at a time by `wrap`.
fn deep(nodes: usize, wrap: impl Fn(Process) -> Process) -> Vec<u8> {
    let process = (0..255 / nodes).fold(nil(), |p, _| wrap(p));
    file(names(), &process)
}

/// Signal 0 and register 1; reader 0 does not see the register.
fn names() -> Names {
    let mut names = Names::new();
    names.signal(0);
    names.register(1);
    names
}

fn run_to_limit(script: &[u8], present: i32) -> RunAnswer {
    let rules = Rules::default();
    assert_eq!(check(rules, &BOOK, script).number, 0);
    assert!(pairs(rules, &BOOK, script).is_some());
    assert_eq!(flows(rules, script).number, 0);
    let (mut values, mut log) = ([present, 0], [0; 64]);
    // Signal 0 comes again after each third of the steps.
    let list = [LIMIT / 3, 0, LIMIT / 3 * 2, 0];
    let arguments = RunArguments {
        reader: 0,
        values: &mut values,
        limit: LIMIT,
        list: &list,
        log: &mut log,
    };
    run(rules, &BOOK, script, arguments)
}

fn with_little_stack(test: impl FnOnce() + Send + 'static) {
    let thread = std::thread::Builder::new().stack_size(STACK);
    thread.spawn(test).unwrap().join().unwrap();
}

#[test]
fn deep_scripts_run() {
    with_little_stack(|| {
        let scripts = [
            deep(1, |p| watching(p, 0)),
            deep(1, |p| when(0, p)),
            deep(1, |p| while_do(constant(1), p)),
            deep(2, |p| seq(p, nil())),
            deep(2, |p| seq(nil(), p)),
            deep(2, |p| par(p, nil())),
            deep(2, |p| par(nil(), p)),
            deep(3, |p| par(when(0, nil()), p)),
            deep(3, |p| par(p, when(0, nil()))),
            deep(2, |p| if_else(constant(1), p, nil())),
        ];
        for (script, present) in scripts.iter().flat_map(|s| [(s, 0), (s, 1)]) {
            assert_eq!(run_to_limit(script, present).number, 0);
        }
    });
}

#[test]
fn a_deep_expression_is_evaluated() {
    with_little_stack(|| {
        let e = (0..255).fold(constant(0), |e, _| not(e));
        let answer = run_to_limit(&file(names(), &assign(1, e)), 0);
        assert_eq!((answer.ending, answer.steps), (0, 1));
    });
}

/// Each round of the loop takes five steps (while, let, local, assign, drop) and
/// makes a fresh register and a fresh signal.
#[test]
fn many_fresh_names_are_made() {
    let mut n = names();
    let (u, a) = (n.register(1), n.signal(1));
    let body = let_in(u, add(read(1), constant(1)), local(a, assign(1, read(u))));
    let script = file(n, &while_do(constant(1), body));
    let mut values = [0; 4];
    let arguments = RunArguments {
        reader: 0,
        values: &mut values,
        limit: 100_000,
        list: &[],
        log: &mut [],
    };
    let answer = run(Rules::default(), &BOOK, &script, arguments);
    assert_eq!((answer.ending, answer.steps), (1, 100_000));
    assert_eq!(values, [0, 20_000, 0, 0]);
}

/// Changes to the last instant but one that the limit allows, then one move.
#[test]
fn a_late_signal_ends_a_long_wait() {
    let script = file(names(), &when(0, nil()));
    let mut values = [0; 2];
    let arguments = RunArguments {
        reader: 0,
        values: &mut values,
        limit: 1_000_000,
        list: &[999_999, 0, 1_000_000, 0],
        log: &mut [],
    };
    let answer = run(Rules::default(), &BOOK, &script, arguments);
    assert_eq!((answer.ending, answer.steps), (0, 1_000_000));
    assert_eq!((answer.instants, values), (999_999, [1, 0]));
}
