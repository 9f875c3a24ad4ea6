//! The report's example programs, sections 1 to 3.1. Steps were counted by hand by
//! the rules of Figures 1 to 4.

use super::script::*;
use super::{finished, spent, three_signals, Example, H, L};

const INTRODUCTION: &str = "the report, section 1";
const MOVES: &str = "the report, section 2.2.1";
const INSTANTS: &str = "the report, section 2.2.2";
const TYPES: &str = "the report, section 3.1";

pub fn all() -> Vec<Example> {
    let groups = [
        introduction(),
        vec![program_2()],
        vec![example_1()],
        not_associative(),
        vec![example_2(), two_pauses(), pause_and_when()],
        vec![causality_cycle()],
        program_3(),
        pin(),
        program_7(),
        program_8(),
        high_loop(),
    ];
    groups.into_iter().flatten().collect()
}

fn introduction() -> Vec<Example> {
    let mut n = Names::new();
    let (x, y) = (n.register(H), n.register(L));
    let loops = || {
        let waits = while_do(is_not_zero(x), nil());
        seq(waits, assign(y, constant(0)))
    };
    vec![
        Example::script("y_L := x_H", INTRODUCTION, n.clone(), assign(y, read(x))).refused(11, 0),
        Example::script(
            "if x_H = 0 then y_L := 0 else nil",
            INTRODUCTION,
            n.clone(),
            if_else(is_zero(x), assign(y, constant(0)), nil()),
        )
        .refused(11, 2),
        Example::script(
            "program (1): (while x_H != 0 do nil); y_L := 0",
            INTRODUCTION,
            n.clone(),
            loops(),
        )
        .refused(11, 3),
        Example::script(
            "program (6): (while x_H != 0 do nil); y_L := 0",
            TYPES,
            n,
            loops(),
        )
        .refused(11, 3),
    ]
}

/// 'It may either terminate within an instant, in which case a_L remains
/// present, or suspend and change instant, in which case a_L is erased.'
fn program_2() -> Example {
    let mut n = Names::new();
    let (a, x, a1, b1) = (n.signal(L), n.register(H), n.signal(H), n.signal(H));
    Example::script(
        "program (2): emit a_L; if x_H = 0 then nil else pause",
        INTRODUCTION,
        n,
        seq(emit(a), if_else(is_zero(x), nil(), pause(a1, b1))),
    )
    .accepted(0, 1)
    .moves(9)
    .run(
        (&[0, 0, 0, 0], 100),
        finished(3, 0),
        &[[1, 0, 0, 1]],
        &[1, 0, 0, 0],
    )
    .run(
        (&[0, 1, 0, 0], 100),
        finished(8, 1),
        &[[1, 0, 0, 1]],
        &[0, 1, 0, 0],
    )
    .run_with(
        (1, &[0, 1, 0, 0], 100, 64),
        finished(8, 1),
        &[[1, 0, 0, 1], [6, 0, 3, 1]],
        &[0, 1, 0, 0],
    )
}

/// 'The emission of signal a by the third process unblocks the first of the
/// suspended processes, enabling them to execute one after the other.' Trade,
/// emit a, drop, emit b, when goes, drop, emit c, when goes.
fn example_1() -> Example {
    let (n, a, b, c) = three_signals();
    let queue = par(when(a, emit(b)), when(b, emit(c)));
    Example::script(
        "Example 1: ((when a do emit b) par (when b do emit c)) par emit a",
        MOVES,
        n,
        par(queue, emit(a)),
    )
    .accepted(0, 0)
    .moves(21)
    .run(
        (&[0, 0, 0], 100),
        finished(8, 0),
        &[[2, 0, 0, 1], [4, 0, 1, 1], [7, 0, 2, 1]],
        &[1, 1, 1],
    )
}

/// 'The first program will emit the signals in the order a, b, c, while the
/// second will emit them in the order a, c, b.'
fn not_associative() -> Vec<Example> {
    let (n, a, b, c) = three_signals();
    vec![
        // Trade inside, emit a, drop, emit b, when goes, drop, emit c.
        Example::script(
            "((when a do emit b) par emit a) par emit c",
            MOVES,
            n.clone(),
            par(par(when(a, emit(b)), emit(a)), emit(c)),
        )
        .accepted(0, 0)
        .moves(18)
        .run(
            (&[0, 0, 0], 100),
            finished(7, 0),
            &[[2, 0, 0, 1], [4, 0, 1, 1], [7, 0, 2, 1]],
            &[1, 1, 1],
        ),
        // Trade, emit a, drop, emit c, drop, emit b, when goes.
        Example::script(
            "(when a do emit b) par (emit a par emit c)",
            MOVES,
            n,
            par(when(a, emit(b)), par(emit(a), emit(c))),
        )
        .accepted(0, 0)
        .moves(18)
        .run(
            (&[0, 0, 0], 100),
            finished(7, 0),
            &[[2, 0, 0, 1], [4, 0, 2, 1], [6, 0, 1, 1]],
            &[1, 1, 1],
        ),
    ]
}

/// Local, local, emit b, drop nil, and the instant change that aborts.
fn example_2() -> Example {
    let mut n = Names::new();
    let (a, b) = (n.signal(L), n.signal(L));
    Example::script("Example 2: pause", INSTANTS, n, pause(a, b))
        .accepted(0, 0)
        .moves(6)
        .run((&[0, 0], 100), finished(5, 1), &[[3, 0, 1, 1]], &[0, 0])
}

/// 'Evolves to the program Q par P after a change of instant': P is x := 1, Q is
/// y := 2. Four moves of a pause, trade, four moves, instant change, then Q
/// before P, each after its nil is dropped.
fn two_pauses() -> Example {
    let mut n = Names::new();
    let (x, y) = (n.register(L), n.register(L));
    let (a1, b1, a2, b2) = (n.signal(L), n.signal(L), n.signal(L), n.signal(L));
    let first = seq(pause(a1, b1), assign(x, constant(1)));
    let second = seq(pause(a2, b2), assign(y, constant(2)));
    Example::script(
        "(pause; x := 1) par (pause; y := 2)",
        INSTANTS,
        n,
        par(first, second),
    )
    .accepted(0, 0)
    .moves(34)
    .run(
        (&[0, 0, 0, 0, 0, 0], 100),
        finished(15, 1),
        &[[3, 0, 3, 1], [8, 0, 5, 1], [12, 1, 1, 2], [15, 1, 0, 1]],
        &[1, 2, 0, 0, 0, 0],
    )
}

/// 'No switch of control occurs ... this program will evolve to P par (when a do
/// Q) at instant change.' Four moves, instant change, drop, P, drop; then the
/// when waits.
fn pause_and_when() -> Example {
    let mut n = Names::new();
    let (x, y, a) = (n.register(L), n.register(L), n.signal(L));
    let (a1, b1) = (n.signal(L), n.signal(L));
    let first = seq(pause(a1, b1), assign(x, constant(1)));
    Example::script(
        "(pause; x := 1) par (when a do y := 2)",
        INSTANTS,
        n,
        par(first, when(a, assign(y, constant(2)))),
    )
    .accepted(0, 0)
    .moves(22)
    .run(
        (&[0, 0, 0, 0, 0], 10),
        spent(10, 3),
        &[[3, 0, 4, 1], [7, 1, 0, 1]],
        &[1, 0, 0, 0, 0],
    )
}

/// 'Here the whole program suspends after the emission of a. Then, since a is
/// present, the body of the watching construct is killed and a new instant
/// starts, during which b is emitted, thus unblocking the other thread and
/// allowing c to be emitted.' Emit a, drop, instant change, trade, drop, emit b,
/// drop, emit c, when goes.
fn causality_cycle() -> Example {
    let (n, a, b, c) = three_signals();
    let right = seq(watching(when(c, emit(b)), a), emit(b));
    Example::script(
        "the causality cycle",
        INSTANTS,
        n,
        seq(emit(a), par(when(b, emit(c)), right)),
    )
    .accepted(0, 0)
    .moves(20)
    .run(
        (&[0, 0, 0], 100),
        finished(9, 1),
        &[[1, 0, 0, 1], [6, 1, 1, 1], [8, 1, 2, 1]],
        &[0, 1, 1],
    )
}

/// 'Whether a_H is present or not this program always terminates (in one or two
/// instants respectively), but b_L is emitted only if a_H is present.' And (4).
fn program_3() -> Vec<Example> {
    let process = |a, b, c| seq(emit(c), watching(when(a, emit(b)), c));
    let mut n = Names::new();
    let (a, b, c) = (n.signal(H), n.signal(L), n.signal(L));
    let (low, la, lb, lc) = three_signals();
    vec![
        Example::script("program (3)", TYPES, n.clone(), process(a, b, c)).refused(11, 2),
        // Emit c, drop, emit b, when goes, watching goes; or emit c, drop,
        // instant change.
        Example::script("program (3), all low", TYPES, low, process(la, lb, lc))
            .accepted(0, 0)
            .moves(5)
            .run(
                (&[1, 0, 0], 100),
                finished(5, 0),
                &[[1, 0, 2, 1], [3, 0, 1, 1]],
                &[1, 1, 1],
            )
            .run(
                (&[0, 0, 0], 100),
                finished(3, 1),
                &[[1, 0, 2, 1]],
                &[0, 0, 0],
            ),
        Example::script(
            "program (4): (when a_H do nil); emit b_L",
            TYPES,
            n,
            seq(when(a, nil()), emit(b)),
        )
        .refused(11, 3),
    ]
}

/// Program (5), with PIN (0), a (1), b (2) and c (3).
fn pin_process(high: u8) -> (Names, Process) {
    let mut n = Names::new();
    let (pin, a) = (n.register(high), n.signal(high));
    let (b, c) = (n.signal(L), n.signal(L));
    let gamma = if_else(is_zero(pin), emit(a), nil());
    let alpha = seq(when(a, nil()), emit(b));
    let beta = seq(emit(c), emit(a));
    (n, par(gamma, par(alpha, beta)))
}

/// 'If PIN_H = 0, then alpha is completely executed before beta gets the control,
/// and b_L is emitted before c_L. If PIN_H != 0, then alpha suspends and beta
/// executes, emitting c_L and then a_H, thus unblocking alpha. In this case b_L
/// is emitted after c_L.'
fn pin() -> Vec<Example> {
    let (high_names, high) = pin_process(H);
    let (low_names, low) = pin_process(L);
    vec![
        // Node 6 is alpha: its when tests H before b_L is written.
        Example::script("program (5), PIN", TYPES, high_names, high).refused(11, 6),
        // If, emit a, drop, when goes, drop, emit b, drop, emit c, drop, and emit a,
        // which finds it present.
        // If, drop, trade, emit c, drop, emit a, drop, when goes, drop, emit b.
        Example::script("program (5), PIN, all low", TYPES, low_names, low)
            .accepted(0, 0)
            .moves(30)
            .run(
                (&[0, 0, 0, 0], 100),
                finished(10, 0),
                &[[2, 0, 1, 1], [6, 0, 2, 1], [8, 0, 3, 1]],
                &[0, 1, 1, 1],
            )
            .run(
                (&[1234, 0, 0, 0], 100),
                finished(10, 0),
                &[[4, 0, 3, 1], [6, 0, 1, 1], [10, 0, 2, 1]],
                &[1234, 1, 1, 1],
            ),
    ]
}

/// Program (7), with x (0), y (1) and the pause's signals (2 and 3).
fn program_7_process(high: u8) -> (Names, Process) {
    let mut n = Names::new();
    let (x, y) = (n.register(high), n.register(L));
    let (a1, b1) = (n.signal(high), n.signal(high));
    let clears_x = || assign(x, constant(0));
    let waits = while_do(is_not_zero(x), seq(pause(a1, b1), clears_x()));
    let first = seq(waits, assign(y, constant(0)));
    (n, par(first, seq(assign(y, constant(1)), clears_x())))
}

/// 'If it suspends, the second thread takes over and the low variable y_L gets
/// the value 1 before the value 0. If it does not suspend, the low variable y_L
/// gets the value 0 before the value 1.'
fn program_7() -> Vec<Example> {
    let (high_names, high) = program_7_process(H);
    let (low_names, low) = program_7_process(L);
    vec![
        // Node 11 is the first thread: a high loop, then a low assignment.
        Example::script("program (7)", TYPES, high_names, high).refused(11, 11),
        // While, drop, y, drop, y, drop, x.
        // While, local, local, emit, drop, trade, y, drop, x, drop, instant
        // change, drop, x, drop, while, drop, y.
        Example::script("program (7), all low", TYPES, low_names, low)
            .accepted(0, 0)
            .run(
                (&[0, 5, 0, 0], 100),
                finished(7, 0),
                &[[3, 0, 1, 0], [5, 0, 1, 1], [7, 0, 0, 0]],
                &[0, 1, 0, 0],
            )
            .run(
                (&[1, 5, 0, 0], 100),
                finished(17, 1),
                &[
                    [4, 0, 3, 1],
                    [7, 0, 1, 1],
                    [9, 0, 0, 0],
                    [13, 1, 0, 0],
                    [17, 1, 1, 0],
                ],
                &[0, 0, 0, 0],
            ),
    ]
}

/// Program (8), with x (0), a (1), b (2), c (3) and the pauses' signals (4 to 7).
fn program_8_process(high: u8) -> (Names, Process) {
    let mut n = Names::new();
    let (x, a, b, c) = (n.register(L), n.signal(high), n.signal(high), n.signal(L));
    let (a1, b1, a2, b2) = (n.signal(L), n.signal(L), n.signal(L), n.signal(L));
    let gamma = seq(pause(a1, b1), assign(x, constant(1)));
    let waits = watching(when(a, nil()), b);
    let alpha = par(waits, when(c, assign(x, constant(0))));
    let beta = seq(pause(a2, b2), emit(c));
    (n, par(par(gamma, alpha), beta))
}

/// From {a, b} 'the assignment x_L := 0 will be executed first, while in the
/// second', from {b}, 'it will be executed after x_L := 1'.
fn program_8() -> Vec<Example> {
    let (high_names, high) = program_8_process(H);
    vec![
        // Node 14 is alpha': one part tests H, the other writes L.
        Example::script("program (8)", TYPES, high_names, high).refused(11, 14),
        program_8_all_low(),
    ]
}

/// From {a, b}: local, local, emit, drop, trade, when goes, watching goes, drop,
/// trade, local, local, emit, drop, instant change, drop, emit c, drop, x, when
/// goes, drop, drop, x.
/// From {b}: local, local, emit, drop, trade, local, local, emit, drop, instant
/// change, drop, emit c, drop, drop, x, drop, drop, x, when goes.
fn program_8_all_low() -> Example {
    let (names, process) = program_8_process(L);
    let from_both = [
        [3, 0, 5, 1],
        [12, 0, 7, 1],
        [16, 1, 3, 1],
        [18, 1, 0, 0],
        [22, 1, 0, 1],
    ];
    let from_b = [
        [3, 0, 5, 1],
        [8, 0, 7, 1],
        [12, 1, 3, 1],
        [15, 1, 0, 1],
        [18, 1, 0, 0],
    ];
    Example::script("program (8), all low", TYPES, names, process)
        .accepted(0, 0)
        .moves(92)
        .run(
            (&[7, 1, 1, 0, 0, 0, 0, 0], 100),
            finished(22, 1),
            &from_both,
            &[1, 0, 0, 1, 0, 0, 0, 0],
        )
        .run(
            (&[7, 0, 1, 0, 0, 0, 0, 0], 100),
            finished(19, 1),
            &from_b,
            &[0, 0, 0, 1, 0, 0, 0, 0],
        )
}

/// 'Allowing loops with high guards such as while x_H = 0 do nil'.
fn high_loop() -> Vec<Example> {
    let mut n = Names::new();
    let x = n.register(H);
    vec![Example::script(
        "while x_H = 0 do nil",
        TYPES,
        n,
        while_do(is_zero(x), nil()),
    )
    .accepted(1, 1)
    .run((&[3], 100), finished(1, 0), &[], &[3])
    .run((&[0], 7), spent(7, 0), &[], &[0])]
}
