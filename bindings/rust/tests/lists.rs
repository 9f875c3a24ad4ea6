//! The signal list: what arrives when, and the edges of its pairs.
use station::{lines, run, Ending, Line, Place, Reason, Refusal, Run, MAX_STEPS, PAIR_WORDS};

/// Two levels, 0 at or below 1.
const BOOK: [u8; 5] = [0x02, 0x00, 0x03, 0x00, 0x02];

/// local s in (when a do x := 1), all at level 0; b is used nowhere.
const SCRIPT: [u8; 56] = [
    0x00, 0x00, 0xFF, 0xFF, // name 0, x: register, of the session
    0x01, 0x00, 0xFF, 0xFF, // name 1, a: signal, of the session
    0x01, 0x00, 0xFF, 0xFF, // name 2, b: signal, of the session
    0x01, 0x00, 0x00, 0x02, // name 3, s: signal, owned by node 2
    0x00, 0x00, 0x00, 0x00, 0x00, 0x00, 0x00, 0x01, // expression 0: 1
    0x01, 0x00, 0x00, 0x00, 0x00, 0x00, 0x00, 0x00, // node 0: x := expression 0
    0x09, 0x00, 0x00, 0x01, 0x00, 0x00, 0x00, 0x00, // node 1: when a do node 0
    0x07, 0x00, 0x00, 0x03, 0x00, 0x01, 0x00, 0x00, // node 2: local s in node 1
    0x00, 0x10, 0x00, 0x18, 0x00, 0x30, 0x53, 0x54, // tail
];

const X: u32 = 0;
const A: u32 = 1;
const B: u32 = 2;
const S: u32 = 3;
const NAMES: usize = 4;

const UNTOUCHED: u32 = 0xA5A5_A5A5;

type Pairs<'a> = &'a [[u32; PAIR_WORDS]];

/// The answer, values and lines of a run with this limit, in which no signal is present at the start.
fn run_with(list: Pairs, limit: u32) -> (Run, [i32; NAMES], Vec<Line>) {
    let (mut values, mut log) = ([0; NAMES], [0; 8]);
    let answer = run(
        &BOOK,
        &SCRIPT,
        0,
        &mut values,
        limit,
        list.as_flattened(),
        &mut log,
    )
    .expect("accepted");
    let lines = lines(&log, answer.lines).collect();
    (answer, values, lines)
}

fn answer(ending: Ending, steps: u32, instants: u32, lines: usize) -> Run {
    Run {
        ending,
        steps,
        instants,
        lines,
    }
}

#[test]
fn a_signal_is_present_in_the_instant_of_its_pair() {
    let line = Line {
        step: 5,
        instant: 3,
        name: X,
        value: 1,
    };
    let expected = (answer(Ending::Finished, 6, 3, 1), [1, 1, 0, 0], vec![line]);
    assert_eq!(run_with(&[[3, A]], 1000), expected);
}

#[test]
fn without_a_pair_no_signal_arrives() {
    let expected = (answer(Ending::Spent, 1000, 999, 0), [0; NAMES], vec![]);
    assert_eq!(run_with(&[], 1000), expected);
}

#[test]
fn a_signal_is_absent_in_an_instant_without_its_pair() {
    let at_limit = |limit| run_with(&[[1, B], [3, B]], limit).1[B as usize];
    // Step 1 enters the local, each later one the next instant.
    let found: Vec<i32> = (1..=5).map(at_limit).collect();
    assert_eq!(found, [0, 1, 0, 1, 0]);
}

#[test]
fn what_is_present_at_the_start_is_present_in_instant_0_alone() {
    let after_a_change = |list: Pairs| {
        let mut values = [0, 0, 1, 0];
        let list = list.as_flattened();
        run(&BOOK, &SCRIPT, 0, &mut values, 2, list, &mut []).expect("accepted");
        values[B as usize]
    };
    assert_eq!(after_a_change(&[]), 0);
    assert_eq!(after_a_change(&[[1, B]]), 1);
    assert_eq!(after_a_change(&[[2, B]]), 0);
}

#[test]
fn lists_that_name_the_same_signals_for_each_instant_run_alike() {
    let expected = run_with(&[[2, B], [3, A], [3, B]], 1000);
    let others: [Pairs; 3] = [
        &[[2, B], [3, B], [3, A]],
        &[[2, B], [2, B], [3, A], [3, B], [3, A]],
        &[[2, B], [3, A], [3, B], [4, A], [u32::MAX, B]],
    ];
    for list in others {
        assert_eq!(run_with(list, 1000), expected);
    }
}

/// Runs with this list and expects that it is refused, and that nothing is changed.
fn refused(list: &[u32], limit: u32) -> Refusal {
    let (mut values, mut log) = ([3, 1, 1, 0], [UNTOUCHED; 8]);
    let refusal = run(&BOOK, &SCRIPT, 0, &mut values, limit, list, &mut log).expect_err("refused");
    assert_eq!(values, [3, 1, 1, 0]);
    assert_eq!(log, [UNTOUCHED; 8]);
    refusal
}

#[test]
fn the_first_pair_at_fault_is_the_place() {
    let lists: [(&[u32], u32); 11] = [
        (&[0, A], 0),
        (&[1, A, 0, A], 1),
        (&[2, A, 1, A], 1),
        (&[1, A, 2, A, 2, B, 1, A, 0, A], 3),
        (&[1, X], 0),
        (&[1, S], 0),
        (&[1, B, 1, NAMES as u32, 1, X], 1),
        (&[1, u32::MAX], 0),
        (&[1], 0),
        (&[1, A, 2], 1),
        (&[1, A, 0, A, 2], 1),
    ];
    for (list, place) in lists {
        let refusal = refused(list, 1000);
        assert_eq!((refusal.reason, refusal.place), (Reason::List, place));
        assert_eq!(refusal.at(), Place::ListPair(place));
    }
}

#[test]
fn a_wrong_limit_is_refused_before_a_wrong_list() {
    assert_eq!(refused(&[0], MAX_STEPS + 1).reason, Reason::Limit);
    assert_eq!(refused(&[0], MAX_STEPS).reason, Reason::List);
}
