//! The sides on one input: first that they agree, then how long they take.

use std::hint::black_box;

use crate::plain::{Arguments, Flows, Variant};
use crate::timing::in_turn;
use crate::workloads::{Call, Check, Question};
use crate::{library, plain};

/// Calls in one timed run of what is too short to be timed alone.
const CALLS: u32 = 200;

/// Library, plain, resting.
pub const RUN_SIDES: usize = 3;

/// Library, plain: of check and of flows.
pub const CHECK_SIDES: usize = 2;

/// What a log word holds before the runs that are compared: no word of a line is like it.
const UNTOUCHED: u32 = 0xA5A5_A5A5;

pub fn run_on(
    side: usize,
    call: &Call,
    limit: u32,
    values: &mut [i32],
    log: &mut [u32],
) -> [u32; 6] {
    let Call {
        book,
        script,
        reader,
        list,
        ..
    } = call;
    let variant = match side {
        0 => return library::run(book, script, *reader, values, limit, list, log),
        1 => Variant::Walking,
        _ => Variant::Resting,
    };
    let arguments = Arguments {
        reader: *reader,
        values,
        limit,
        list,
        log,
    };
    plain::run(variant, book, script, arguments)
}

pub fn check_on(side: usize, book: &[u8], script: &[u8]) -> [u32; 6] {
    match side {
        0 => library::check(book, script),
        _ => plain::check(book, script),
    }
}

pub fn flows_on(side: usize, script: &[u8]) -> ([u32; 2], Flows) {
    match side {
        0 => library::flows(script),
        _ => plain::flows(script),
    }
}

/// What a run returns; panics unless all sides return and leave the same.
pub fn agreed_run(name: &str, call: &Call, limit: u32) -> [u32; 6] {
    let outcome = |side| {
        let (mut values, mut log) = (call.values.clone(), vec![UNTOUCHED; call.log]);
        let out = run_on(side, call, limit, &mut values, &mut log);
        (out, values, log)
    };
    let by_library = outcome(0);
    for side in 1..RUN_SIDES {
        let other = outcome(side);
        assert_eq!(by_library.0, other.0, "{name}: returned numbers");
        assert_eq!(by_library.1, other.1, "{name}: values");
        assert!(by_library.2 == other.2, "{name}: log");
    }
    by_library.0
}

pub fn agreed_check(name: &str, book: &[u8], script: &[u8]) -> [u32; 6] {
    let out = check_on(0, book, script);
    assert_eq!(out, check_on(1, book, script), "{name}");
    out
}

pub fn agreed_flows(name: &str, script: &[u8]) -> ([u32; 2], Flows) {
    let answer = flows_on(0, script);
    assert_eq!(answer, flows_on(1, script), "{name}: flows");
    answer
}

fn accepted_run(name: &str, call: &Call) -> [u32; 6] {
    let out = agreed_run(name, call, call.limit);
    assert_eq!(out[..2], [0, 0], "{name}: refused");
    out
}

/// Seconds for a step of a whole run. The log is not cleared between runs; values are set anew.
pub fn run(name: &str, call: &Call) -> [f64; RUN_SIDES] {
    let steps = accepted_run(name, call)[3];
    let times = timed_run(call, call.limit, 1);
    times.map(|time| time / steps.max(1) as f64)
}

/// Seconds for a whole run.
pub fn whole_run(name: &str, call: &Call) -> [f64; RUN_SIDES] {
    accepted_run(name, call);
    timed_run(call, call.limit, 1)
}

/// Seconds for a call of run with step limit 0: all checks, and the preparation.
pub fn start(name: &str, call: &Call) -> [f64; RUN_SIDES] {
    agreed_run(name, call, 0);
    timed_run(call, 0, CALLS).map(|time| time / CALLS as f64)
}

fn timed_run(call: &Call, limit: u32, calls: u32) -> [f64; RUN_SIDES] {
    let (mut values, mut log) = (call.values.clone(), vec![0; call.log]);
    in_turn(|side| {
        for _ in 0..calls {
            values.copy_from_slice(&call.values);
            black_box(run_on(side, black_box(call), limit, &mut values, &mut log));
        }
    })
}

/// Seconds for a call of check.
pub fn check(check: &Check) -> [f64; CHECK_SIDES] {
    let Check {
        name,
        book,
        script,
        refusal,
    } = check;
    let out = agreed_check(name, book, script);
    assert_eq!(out[0], *refusal, "{name}: refused");
    timed_calls(|side| {
        black_box(check_on(side, black_box(book), black_box(script)));
    })
}

/// Seconds for a call of flows.
pub fn flows(question: &Question) -> [f64; CHECK_SIDES] {
    let Question {
        name,
        script,
        pairs,
    } = question;
    let (refusal, flows) = agreed_flows(name, script);
    assert_eq!(refusal, [0, 0], "{name}: refused");
    let count: u32 = flows.iter().map(|set| set.count_ones()).sum();
    assert_eq!(count, *pairs, "{name}: pairs");
    timed_calls(|side| {
        black_box(flows_on(side, black_box(script)));
    })
}

fn timed_calls(call: impl Fn(usize)) -> [f64; CHECK_SIDES] {
    let times: [f64; CHECK_SIDES] = in_turn(|side| (0..CALLS).for_each(|_| call(side)));
    times.map(|time| time / CALLS as f64)
}
