//! Which emissions are lines: small programs for single sentences of 02 (c). The
//! steps were counted by hand; 'change' stands for an instant change. A repeat is
//! an emission that finds its signal present.

use super::script::*;
use super::{finished, log_full, spent, Example, H, L, LOG_WORDS};

const APPEARS: &str = "02 (c), a signal that appears";
const REPEATS: &str = "02 (c), repeats";
const RECORDS: &str = "02 (c), records without those lines";
const ASSIGNMENTS: &str = "02 (c), 'of emissions'";

pub fn all() -> Vec<Example> {
    vec![
        one_emission(),
        two_emissions(),
        another_line_between(),
        another_signal_between(),
        emitted_in_each_round(),
        emitted_in_two_instants(),
        emitted_after_its_watching(),
        emitted_in_each_instant(),
        local_renewed_in_each_round(),
        local_entered_once(),
        two_threads(),
        three_threads(),
        sealed_from_the_start(),
        sealed_by_the_list(),
        equal_assignments(),
        register_to_itself(),
    ]
}

/// Signals a (0) and b (1), both L.
fn two_signals() -> (Names, Name, Name) {
    let mut n = Names::new();
    let (a, b) = (n.signal(L), n.signal(L));
    (n, a, b)
}

/// 'Only one that makes an absent signal present'; one that finds it present
/// 'needs no log words, and can't end the run as log full'.
fn one_emission() -> Example {
    let mut n = Names::new();
    let a = n.signal(L);
    Example::script("emit a", APPEARS, n, emit(a))
        .accepted(0, 0)
        .moves(1)
        .run((&[0], 9), finished(1, 0), &[[1, 0, 0, 1]], &[1])
        .run_with((0, &[0], 9, 4), finished(1, 0), &[[1, 0, 0, 1]], &[1])
        .run_with((0, &[0], 9, 3), log_full(0, 0), &[], &[0])
        .run((&[1], 9), finished(1, 0), &[], &[1])
        .run_with((0, &[1], 9, 0), finished(1, 0), &[], &[1])
        // Spent comes first, with and without a line to write.
        .run_with((0, &[0], 0, 0), spent(0, 0), &[], &[0])
        .run_with((0, &[1], 0, 0), spent(0, 0), &[], &[1])
}

/// Emit, drop, and a repeat that 'takes its step'. With room for one line the log
/// is exactly full when the repeat comes.
fn two_emissions() -> Example {
    let mut n = Names::new();
    let a = n.signal(L);
    let line = [1, 0, 0, 1];
    Example::script("emit a; emit a", REPEATS, n, seq(emit(a), emit(a)))
        .accepted(0, 0)
        .moves(3)
        .run((&[0], 9), finished(3, 0), &[line], &[1])
        .run((&[0], 3), finished(3, 0), &[line], &[1])
        .run((&[0], 2), spent(2, 0), &[line], &[1])
        .run_with((0, &[0], 9, 7), finished(3, 0), &[line], &[1])
        .run_with((0, &[0], 9, 4), finished(3, 0), &[line], &[1])
        .run_with((0, &[0], 2, 4), spent(2, 0), &[line], &[1])
        .run_with((0, &[0], 9, 3), log_full(0, 0), &[], &[0])
        .run_with((0, &[1], 9, 0), finished(3, 0), &[], &[1])
}

/// Names a (0), x (1). Emit, drop, x, drop, and a repeat.
fn another_line_between() -> Example {
    let mut n = Names::new();
    let (a, x) = (n.signal(L), n.register(L));
    let process = seq(emit(a), seq(assign(x, constant(5)), emit(a)));
    let (emits, assigns) = ([1, 0, 0, 1], [3, 0, 1, 5]);
    Example::script("emit a; (x := 5; emit a)", REPEATS, n, process)
        .accepted(0, 0)
        .moves(5)
        .run((&[0, 0], 9), finished(5, 0), &[emits, assigns], &[1, 5])
        .run_with(
            (0, &[0, 0], 9, 8),
            finished(5, 0),
            &[emits, assigns],
            &[1, 5],
        )
        .run_with((0, &[0, 0], 9, 7), log_full(2, 0), &[emits], &[1, 0])
        .run_with((0, &[1, 0], 9, 4), finished(5, 0), &[assigns], &[1, 5])
        .run_with((0, &[1, 0], 9, 3), log_full(2, 0), &[], &[1, 0])
}

/// Of an owned signal an emission is a line, too. Local, emit a, drop, emit b,
/// drop, and a repeat; from a present, two repeats.
fn another_signal_between() -> Example {
    let (n, a, b) = two_signals();
    let process = local(b, seq(emit(a), seq(emit(b), emit(a))));
    let (a_line, b_line) = ([2, 0, 0, 1], [4, 0, 1, 1]);
    Example::script("local b in (emit a; (emit b; emit a))", REPEATS, n, process)
        .accepted(0, 0)
        .moves(6)
        .run((&[0, 0], 99), finished(6, 0), &[a_line, b_line], &[1, 0])
        .run_with(
            (0, &[0, 0], 99, 8),
            finished(6, 0),
            &[a_line, b_line],
            &[1, 0],
        )
        .run_with((0, &[0, 0], 99, 7), log_full(3, 0), &[a_line], &[1, 0])
        .run((&[1, 0], 99), finished(6, 0), &[b_line], &[1, 0])
        .run_with((0, &[1, 0], 99, 4), finished(6, 0), &[b_line], &[1, 0])
        .run_with((0, &[1, 0], 99, 3), log_full(3, 0), &[], &[1, 0])
}

/// While, emit, drop; while, repeat, drop; and so on, all in instant 0.
fn emitted_in_each_round() -> Example {
    let mut n = Names::new();
    let a = n.signal(L);
    let process = while_do(constant(1), emit(a));
    Example::script("while 1 do emit a", REPEATS, n, process)
        .accepted(0, 0)
        .run_with((0, &[0], 10, 4), spent(10, 0), &[[2, 0, 0, 1]], &[1])
        .run_with((0, &[0], 10, 3), log_full(1, 0), &[], &[0])
        .run_with((0, &[1], 10, 0), spent(10, 0), &[], &[1])
}

/// A line in each of two instants. Emit, drop, change, emit, the when goes.
fn emitted_in_two_instants() -> Example {
    let (n, a, b) = two_signals();
    let (first, second) = ([1, 0, 0, 1], [4, 1, 0, 1]);
    let name = "emit a; (when b do emit a)";
    let process = seq(emit(a), when(b, emit(a)));
    Example::script(name, APPEARS, n, process)
        .accepted(0, 0)
        .moves(4)
        .run((&[0, 0], 9), finished(5, 1), &[first, second], &[1, 1])
        .list(&[1, 1])
        .run_with((0, &[0, 0], 9, 4), log_full(3, 1), &[first], &[0, 1])
        .list(&[1, 1])
        // The start values speak of instant 0 alone.
        .run((&[1, 0], 9), finished(5, 1), &[second], &[1, 1])
        .list(&[1, 1])
        // Listed for instant 1, a is present there; the log may be full.
        .run((&[0, 0], 9), finished(5, 1), &[first], &[1, 1])
        .list(&[1, 0, 1, 1])
        .run_with((0, &[0, 0], 9, 4), finished(5, 1), &[first], &[1, 1])
        .list(&[1, 0, 1, 1])
        .run_with((0, &[1, 0], 9, 0), finished(5, 1), &[], &[1, 1])
        .list(&[1, 1, 1, 0])
        // Listed for an instant before, or after, it is absent.
        .run(
            (&[0, 0], 9),
            finished(6, 2),
            &[first, [5, 2, 0, 1]],
            &[1, 1],
        )
        .list(&[1, 0, 2, 1])
        .run((&[0, 0], 9), finished(5, 1), &[first, second], &[1, 1])
        .list(&[1, 1, 2, 0])
        // With b present from the start: emit, drop, a repeat, the when goes.
        .run((&[0, 1], 9), finished(4, 0), &[first], &[1, 1])
        .list(&[1, 1])
}

/// Emit, drop, the change that ends the watching, drop, emit.
fn emitted_after_its_watching() -> Example {
    let (n, a, b) = two_signals();
    let body = seq(emit(a), when(b, nil()));
    Example::script(
        "(do (emit a; (when b do nil)) watching a); emit a",
        APPEARS,
        n,
        seq(watching(body, a), emit(a)),
    )
    .accepted(0, 0)
    .moves(6)
    .run(
        (&[0, 0], 9),
        finished(5, 1),
        &[[1, 0, 0, 1], [5, 1, 0, 1]],
        &[1, 0],
    )
    .run_with((0, &[0, 0], 9, 4), log_full(4, 1), &[[1, 0, 0, 1]], &[0, 0])
    .run_with((0, &[0, 0], 9, 4), finished(5, 1), &[[1, 0, 0, 1]], &[1, 0])
    .list(&[1, 0])
}

/// Names a (0), and n (1) and p (2) that the pause declares. While, emit a, drop,
/// local, local, emit p, drop, change, drop; then the next round.
fn emitted_in_each_instant() -> Example {
    let mut n = Names::new();
    let (a, never, now) = (n.signal(L), n.signal(L), n.signal(L));
    let (a0, p0) = ([2, 0, 0, 1], [6, 0, 2, 1]);
    let (a1, p1, a2) = ([11, 1, 0, 1], [15, 1, 2, 1], [20, 2, 0, 1]);
    Example::script(
        "while 1 do (emit a; pause)",
        APPEARS,
        n,
        while_do(constant(1), seq(emit(a), pause(never, now))),
    )
    .accepted(0, 0)
    .run(
        (&[0, 0, 0], 20),
        spent(20, 2),
        &[a0, p0, a1, p1, a2],
        &[1, 0, 0],
    )
    .run(
        (&[0, 0, 0], 20),
        spent(20, 2),
        &[a0, p0, p1, a2],
        &[1, 0, 0],
    )
    .list(&[1, 0])
    .run_with((0, &[1, 0, 0], 20, 8), spent(20, 2), &[p0, p1], &[1, 0, 0])
    .list(&[1, 0, 2, 0])
    .run_with(
        (0, &[1, 0, 0], 20, 8),
        log_full(14, 1),
        &[p0, a1],
        &[1, 0, 0],
    )
    .list(&[2, 0])
}

/// 'Local makes its signal absent': its next emission is a line. While, local, x,
/// drop, emit, drop, a repeat, drop; the same again; the last while.
fn local_renewed_in_each_round() -> Example {
    let mut n = Names::new();
    let (x, a) = (n.register(L), n.signal(L));
    let counts = assign(x, add(read(x), constant(1)));
    let body = local(a, seq(counts, seq(emit(a), emit(a))));
    let first = [[3, 0, 0, 1], [5, 0, 1, 1], [11, 0, 0, 2]];
    let all = [first[0], first[1], first[2], [13, 0, 1, 1]];
    Example::script(
        "while x < 2 do local a in (x := x + 1; (emit a; emit a))",
        APPEARS,
        n,
        while_do(less(read(x), constant(2)), body),
    )
    .accepted(0, 0)
    .run((&[0, 0], 99), finished(17, 0), &all, &[2, 0])
    .run_with((0, &[0, 0], 99, 16), finished(17, 0), &all, &[2, 0])
    .run_with((0, &[0, 0], 99, 15), log_full(12, 0), &first, &[2, 0])
}

/// The same signal in both rounds. Local, while, x, drop, emit, drop; while, x,
/// drop, a repeat, drop; the last while.
fn local_entered_once() -> Example {
    let mut n = Names::new();
    let (x, a) = (n.register(L), n.signal(L));
    let body = seq(assign(x, add(read(x), constant(1))), emit(a));
    let lines = [[3, 0, 0, 1], [5, 0, 1, 1], [8, 0, 0, 2]];
    Example::script(
        "local a in while x < 2 do (x := x + 1; emit a)",
        REPEATS,
        n,
        local(a, while_do(less(read(x), constant(2)), body)),
    )
    .accepted(0, 0)
    .run((&[0, 0], 99), finished(12, 0), &lines, &[2, 0])
    .run_with((0, &[0, 0], 99, 12), finished(12, 0), &lines, &[2, 0])
}

/// Trade, emit a, drop, emit b, drop, a repeat, the when goes. With b present:
/// emit a, the when goes, drop, a repeat, drop, a repeat of b.
fn two_threads() -> Example {
    let (n, a, b) = two_signals();
    let (a_line, b_line) = ([2, 0, 0, 1], [4, 0, 1, 1]);
    Example::script(
        "(when b do emit a) parallel (emit a; emit b)",
        REPEATS,
        n,
        par(when(b, emit(a)), seq(emit(a), emit(b))),
    )
    .accepted(0, 0)
    .moves(12)
    .run((&[0, 0], 99), finished(7, 0), &[a_line, b_line], &[1, 1])
    .run_with(
        (0, &[0, 0], 99, 8),
        finished(7, 0),
        &[a_line, b_line],
        &[1, 1],
    )
    .run_with((0, &[0, 0], 99, 7), log_full(3, 0), &[a_line], &[1, 0])
    .run_with((0, &[1, 0], 99, 4), finished(7, 0), &[b_line], &[1, 1])
    .run_with(
        (0, &[0, 1], 99, 4),
        finished(6, 0),
        &[[1, 0, 0, 1]],
        &[1, 1],
    )
}

/// Emit, drop, a repeat, drop, a repeat.
fn three_threads() -> Example {
    let mut n = Names::new();
    let a = n.signal(L);
    Example::script(
        "(emit a parallel emit a) parallel emit a",
        REPEATS,
        n,
        par(par(emit(a), emit(a)), emit(a)),
    )
    .accepted(0, 0)
    .moves(15)
    .run((&[0], 99), finished(5, 0), &[[1, 0, 0, 1]], &[1])
    .run_with((0, &[0], 99, 4), finished(5, 0), &[[1, 0, 0, 1]], &[1])
    .run_with((0, &[1], 99, 0), finished(5, 0), &[], &[1])
}

/// 'Demand 3 stands': whether a_H is present at the start, reader 0 sees the same
/// line. Emit, drop, a repeat, drop, emit b; or two repeats.
fn sealed_from_the_start() -> Example {
    let mut n = Names::new();
    let (a, b) = (n.signal(H), n.signal(L));
    let (a_line, b_line) = ([1, 0, 0, 1], [5, 0, 1, 1]);
    let process = seq(emit(a), seq(emit(a), emit(b)));
    Example::script("emit a_H; (emit a_H; emit b_L)", RECORDS, n, process)
        .accepted(0, 0)
        .moves(5)
        .run_with((0, &[0, 0], 9, 4), finished(5, 0), &[b_line], &[1, 1])
        .run_with((0, &[1, 0], 9, 4), finished(5, 0), &[b_line], &[1, 1])
        .run_with((0, &[0, 0], 9, 3), log_full(4, 0), &[], &[1, 0])
        .run_with((0, &[1, 0], 9, 3), log_full(4, 0), &[], &[1, 0])
        .run_with(
            (1, &[0, 0], 9, 8),
            finished(5, 0),
            &[a_line, b_line],
            &[1, 1],
        )
        .run_with((1, &[0, 0], 9, 7), log_full(4, 0), &[a_line], &[1, 0])
        .run_with((1, &[1, 0], 9, 4), finished(5, 0), &[b_line], &[1, 1])
}

/// Names a_H (0), b_L (1), y_L (2). Change, emit a or a repeat, drop, y, the when
/// goes. The lists agree for reader 0.
fn sealed_by_the_list() -> Example {
    let mut n = Names::new();
    let (a, b, y) = (n.signal(H), n.signal(L), n.register(L));
    let (emits, assigns) = ([2, 1, 0, 1], [4, 1, 2, 1]);
    let process = when(b, seq(emit(a), assign(y, constant(1))));
    let (low, high) = ((0, &[0; 3][..], 9, 4), (1, &[0; 3][..], 9, LOG_WORDS));
    Example::script("when b_L do (emit a_H; y_L := 1)", RECORDS, n, process)
        .accepted(0, 0)
        .moves(4)
        .run_with(low, finished(5, 1), &[assigns], &[1, 1, 1])
        .list(&[1, 1])
        .run_with(low, finished(5, 1), &[assigns], &[1, 1, 1])
        .list(&[1, 0, 1, 1])
        .run_with(high, finished(5, 1), &[emits, assigns], &[1, 1, 1])
        .list(&[1, 1])
        .run_with(high, finished(5, 1), &[assigns], &[1, 1, 1])
        .list(&[1, 0, 1, 1])
}

/// Assignments keep their lines, also where the value is the same. Assign, drop,
/// assign.
fn equal_assignments() -> Example {
    let mut n = Names::new();
    let x = n.register(L);
    let (first, second) = ([1, 0, 0, 5], [3, 0, 0, 5]);
    let five = || assign(x, constant(5));
    Example::script("x := 5; x := 5", ASSIGNMENTS, n, seq(five(), five()))
        .accepted(0, 0)
        .moves(3)
        .run((&[0], 9), finished(3, 0), &[first, second], &[5])
        .run((&[5], 9), finished(3, 0), &[first, second], &[5])
        .run_with((0, &[5], 9, 4), log_full(2, 0), &[first], &[5])
        .run_with((0, &[5], 9, 3), log_full(0, 0), &[], &[5])
}

fn register_to_itself() -> Example {
    let mut n = Names::new();
    let x = n.register(L);
    Example::script("x := x", ASSIGNMENTS, n, assign(x, read(x)))
        .accepted(0, 0)
        .moves(1)
        .run((&[-3], 9), finished(1, 0), &[[1, 0, 0, 4294967293]], &[-3])
        .run((&[0], 9), finished(1, 0), &[[1, 0, 0, 0]], &[0])
        .run_with((0, &[0], 9, 0), log_full(0, 0), &[], &[0])
}
