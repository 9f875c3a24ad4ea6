//! Runs with lists: small programs for single sentences of 02's request (a). The
//! steps were counted by hand; 'change' stands for an instant change.

use super::script::*;
use super::{finished, log_full, spent, Example, H, L, LOG_WORDS};

const LIST: &str = "02 (a), the list";
const ENTERING: &str = "02 (a), entering an instant";
const READERS: &str = "02 (a), lists that agree";
const ERRORS: &str = "02 (a), errors";

const MILLION: u32 = 1_000_000;

pub fn all() -> Vec<Example> {
    vec![
        entered_or_not(),
        repeated_or_far(),
        watched_signal(),
        two_threads(),
        one_instant_only(),
        emitted_as_well(),
        without_a_line(),
        every_reader(),
        lists_that_agree(),
        wrong_instants(),
        wrong_names(),
        half_pairs(),
        after_other_refusals(),
        after_check(),
    ]
}

/// when a do x := 1, with a (0) and x (1) of one level.
fn waits_for_a(level: u8, name: &'static str, place: &'static str) -> Example {
    let mut n = Names::new();
    let (a, x) = (n.signal(level), n.register(level));
    Example::script(name, place, n, when(a, assign(x, constant(1))))
}

/// Three changes, the third with a; x, then the when goes.
fn entered_or_not() -> Example {
    let line = [4, 3, 1, 1];
    waits_for_a(L, "when a do x := 1, with a in instant 3", ENTERING)
        .accepted(0, 0)
        .moves(2)
        .run((&[0, 0], 1000), finished(5, 3), &[line], &[1, 1])
        .list(&[3, 0])
        .run((&[0, 0], 4), spent(4, 3), &[line], &[1, 1])
        .list(&[3, 0])
        // Instant 3 is the last that is entered: a is present, x is not assigned.
        .run((&[0, 0], 3), spent(3, 3), &[], &[1, 0])
        .list(&[3, 0])
        .run((&[0, 0], 2), spent(2, 2), &[], &[0, 0])
        .list(&[3, 0])
        .run_with((0, &[0, 0], 1000, 3), log_full(3, 3), &[], &[1, 0])
        .list(&[3, 0])
        .run((&[0, 0], 3), spent(3, 3), &[], &[0, 0])
        .list(&[4, 0])
        .run((&[0, 0], 3), spent(3, 3), &[], &[0, 0])
        // a is present from the start: instant 1 is never entered.
        .run((&[1, 0], 9), finished(2, 0), &[[1, 0, 1, 1]], &[1, 1])
        .list(&[1, 0])
        // Limit 0: what instant 0 begins with is the start's alone.
        .run((&[0, 0], 0), spent(0, 0), &[], &[0, 0])
        .list(&[1, 0])
}

/// 'Equal pairs may repeat.' Instants are 32-bit words.
fn repeated_or_far() -> Example {
    waits_for_a(L, "when a do x := 1, with a early and late", LIST)
        .accepted(0, 0)
        .moves(2)
        .run((&[0, 0], 9), finished(3, 1), &[[2, 1, 1, 1]], &[1, 1])
        .list(&[1, 0, 1, 0])
        .run((&[0, 0], 9), finished(4, 2), &[[3, 2, 1, 1]], &[1, 1])
        .list(&[2, 0, 2, 0, 2, 0, 7, 0, 7, 0])
        .run((&[0, 0], 4), spent(4, 4), &[], &[0, 0])
        .list(&[65_537, 0])
        .run((&[0, 0], 4), spent(4, 4), &[], &[0, 0])
        .list(&[4_294_967_295, 0])
        // 900 changes, then x, and the when goes.
        .run(
            (&[0, 0], 902),
            finished(902, 900),
            &[[901, 900, 1, 1]],
            &[1, 1],
        )
        .list(&[900, 0])
        .run((&[0, 0], 901), spent(901, 901), &[], &[0, 0])
        .list(&[902, 0])
}

/// 'Watching becomes nil if its signal was present': a is present in instant 1,
/// so that the change to instant 2 ends it, not the change to instant 1.
fn watched_signal() -> Example {
    let mut n = Names::new();
    let (a, b) = (n.signal(L), n.signal(L));
    let process = watching(when(b, nil()), a);
    Example::script("do (when b do nil) watching a", ENTERING, n, process)
        .accepted(1, 0)
        .moves(2)
        .run((&[0, 0], 9), finished(2, 2), &[], &[0, 0])
        .list(&[1, 0])
        .run((&[0, 0], 1), spent(1, 1), &[], &[1, 0])
        .list(&[1, 0])
        // Change, the when goes, watching goes.
        .run((&[0, 0], 9), finished(3, 1), &[], &[0, 1])
        .list(&[1, 1])
        .run((&[0, 0], 9), finished(3, 1), &[], &[1, 1])
        .list(&[1, 0, 1, 1])
        // The change that ends it enters instant 3, where b is present.
        .run((&[0, 0], 9), finished(3, 3), &[], &[0, 1])
        .list(&[2, 0, 3, 1])
}

/// Names a (0), b (1), x (2), y (3). Two changes; then x, the when goes, nil is
/// dropped, y, the when goes. Or b first: change, trade, y, the when goes, nil is
/// dropped, two changes, x, the when goes.
fn two_threads() -> Example {
    let mut n = Names::new();
    let (a, b) = (n.signal(L), n.signal(L));
    let (x, y) = (n.register(L), n.register(L));
    let waits = |a, x| when(a, assign(x, constant(1)));
    Example::script(
        "(when a do x := 1) parallel (when b do y := 1)",
        LIST,
        n,
        par(waits(a, x), waits(b, y)),
    )
    .accepted(0, 0)
    .moves(10)
    .run(
        (&[0, 0, 0, 0], 99),
        finished(7, 2),
        &[[3, 2, 2, 1], [6, 2, 3, 1]],
        &[1, 1, 1, 1],
    )
    .list(&[2, 0, 2, 1])
    .run(
        (&[0, 0, 0, 0], 99),
        finished(7, 2),
        &[[3, 2, 2, 1], [6, 2, 3, 1]],
        &[1, 1, 1, 1],
    )
    .list(&[2, 1, 2, 0])
    .run(
        (&[0, 0, 0, 0], 99),
        finished(9, 3),
        &[[3, 1, 3, 1], [8, 3, 2, 1]],
        &[1, 0, 1, 1],
    )
    .list(&[1, 1, 3, 0])
}

/// A listed signal is present in its instant and absent in the next. Names a (0),
/// b (1), x (2). Change, x, both whens go; or two changes first.
fn one_instant_only() -> Example {
    let mut n = Names::new();
    let (a, b, x) = (n.signal(L), n.signal(L), n.register(L));
    let process = when(a, when(b, assign(x, constant(1))));
    Example::script("when a do when b do x := 1", ENTERING, n, process)
        .accepted(0, 0)
        .moves(3)
        .run((&[0, 0, 0], 4), spent(4, 4), &[], &[0, 0, 0])
        .list(&[1, 0, 2, 1])
        .run((&[0, 0, 0], 2), spent(2, 2), &[], &[0, 1, 0])
        .list(&[1, 0, 2, 1])
        .run((&[0, 0, 0], 9), finished(4, 1), &[[2, 1, 2, 1]], &[1, 1, 1])
        .list(&[1, 0, 1, 1])
        .run((&[0, 0, 0], 9), finished(5, 2), &[[3, 2, 2, 1]], &[1, 1, 1])
        .list(&[1, 1, 2, 0, 2, 1])
        // What the start says of instant 0 does not reach instant 1.
        .run((&[1, 0, 0], 3), spent(3, 3), &[], &[0, 0, 0])
        .list(&[1, 1])
}

/// An emission of a listed signal finds it present, and is no line. Change, emit,
/// the when goes.
fn emitted_as_well() -> Example {
    let mut n = Names::new();
    let a = n.signal(L);
    Example::script("when a do emit a", ENTERING, n, when(a, emit(a)))
        .accepted(0, 0)
        .moves(2)
        .run((&[0], 9), finished(3, 1), &[], &[1])
        .list(&[1, 0])
        .run_with((0, &[0], 9, 0), finished(3, 1), &[], &[1])
        .list(&[1, 0])
}

/// 'Without a log line': entering an instant needs no room in the log. Change,
/// the when goes.
fn without_a_line() -> Example {
    let mut n = Names::new();
    let a = n.signal(L);
    Example::script("when a do nil, without a log", ENTERING, n, when(a, nil()))
        .accepted(1, 0)
        .moves(1)
        .run_with((0, &[0], 9, 0), finished(2, 1), &[], &[1])
        .list(&[1, 0])
        .run_with((0, &[0], 9, 4), finished(2, 1), &[], &[1])
        .list(&[1, 0])
}

/// A sealed signal is present for every reader alike. Change, x, the when goes.
fn every_reader() -> Example {
    waits_for_a(H, "when a_H do x_H := 1", READERS)
        .accepted(1, 1)
        .moves(2)
        .run((&[0, 0], 9), finished(3, 1), &[], &[1, 1])
        .list(&[1, 0])
        .run_with(
            (1, &[0, 0], 9, LOG_WORDS),
            finished(3, 1),
            &[[2, 1, 1, 1]],
            &[1, 1],
        )
        .list(&[1, 0])
}

/// Names a_H (0), b_L (1), x_H (2), y_L (3). Two changes, y, the when goes, nil is
/// dropped; then x and the when goes, or changes. Reader 0 sees the same line.
fn lists_that_agree() -> Example {
    let mut n = Names::new();
    let (a, b) = (n.signal(H), n.signal(L));
    let (x, y) = (n.register(H), n.register(L));
    let waits = |a, x| when(a, assign(x, constant(1)));
    let line = [3, 2, 3, 1];
    Example::script(
        "(when b_L do y_L := 1); (when a_H do x_H := 1)",
        READERS,
        n,
        seq(waits(b, y), waits(a, x)),
    )
    .accepted(0, 1)
    .moves(5)
    .run((&[0; 4], 10), finished(7, 2), &[line], &[1, 1, 1, 1])
    .list(&[1, 0, 2, 1, 2, 0])
    .run((&[0; 4], 10), spent(10, 7), &[line], &[0, 0, 0, 1])
    .list(&[2, 1, 2, 1])
    // b one instant earlier: these lists do not agree for reader 0.
    .run(
        (&[0; 4], 10),
        finished(7, 2),
        &[[2, 1, 3, 1]],
        &[1, 0, 1, 1],
    )
    .list(&[1, 1, 2, 0])
}

/// Names x (0), a (1), b (2), u (3), of which a local declares b and a let u.
/// Local, let, x, nil is dropped, emit a.
fn declares_two(name: &'static str) -> Example {
    let mut n = Names::new();
    let (x, a) = (n.register(L), n.signal(L));
    let (b, u) = (n.signal(L), n.register(L));
    let body = seq(assign(x, read(u)), emit(a));
    let process = local(b, let_in(u, constant(4), body));
    Example::script(name, ERRORS, n, process)
        .accepted(0, 0)
        .moves(5)
}

const START: (u32, &[i32], u32) = (0, &[0, 0, 0, 0], 9);

fn refused_lists(example: Example, lists: &[(&[u32], u32)]) -> Example {
    lists.iter().fold(example, |example, &(list, place)| {
        example.refused_run(START, 15, place).list(list)
    })
}

/// 'Instant 0 or falling.'
fn wrong_instants() -> Example {
    let lists: [(&[u32], u32); 7] = [
        (&[0, 1], 0),
        (&[0, 1, 0, 1, 1, 1], 0),
        (&[1, 1, 0, 1], 1),
        (&[3, 1, 2, 1], 1),
        (&[3, 1, 3, 1, 4, 1, 3, 1, 2, 1], 3),
        (&[4_294_967_295, 1, 4_294_967_294, 1], 1),
        // Instants that are never entered are judged too.
        (&[1, 1, 100, 1, 99, 1], 2),
    ];
    refused_lists(declares_two("lists with wrong instants"), &lists)
        .run(
            (&[0, 0, 0, 0], 9),
            finished(5, 0),
            &[[3, 0, 0, 4], [5, 0, 1, 1]],
            &[4, 1, 0, 0],
        )
        .list(&[1, 1, 1, 1, 2, 1, 4_294_967_295, 1])
}

/// 'Not a session signal.'
fn wrong_names() -> Example {
    let lists: [(&[u32], u32); 9] = [
        (&[1, 0], 0),
        (&[1, 2], 0),
        (&[1, 3], 0),
        (&[1, 4], 0),
        (&[1, 65_537], 0),
        (&[1, 4_294_967_295], 0),
        (&[1, 1, 1, 2], 1),
        (&[1, 1, 2, 1, 100, 0], 2),
        // Pairs 1, 2 and 3 are at fault.
        (&[1, 1, 2, 0, 1, 1, 9], 1),
    ];
    refused_lists(declares_two("lists with wrong names"), &lists)
}

/// 'Half a pair at the end.'
fn half_pairs() -> Example {
    let lists: [(&[u32], u32); 5] = [
        (&[1], 0),
        (&[0], 0),
        (&[1, 1, 2], 1),
        (&[2, 1, 1], 1),
        (&[1, 1, 2, 1, 5, 1, 100], 3),
    ];
    refused_lists(declares_two("lists with half a pair"), &lists)
}

/// 'After 14.'
fn after_other_refusals() -> Example {
    let right: &[i32] = &[0, 0, 0, 0];
    declares_two("a wrong list after other refusals")
        .refused_run((2, &[0, 2], MILLION + 1), 12, 0)
        .list(&[0])
        .refused_run((1, &[0, 2, 0, 0], 9), 13, 1)
        .list(&[0, 1])
        .refused_run((1, right, MILLION + 1), 14, 0)
        .list(&[0, 1])
        .refused_run((1, right, MILLION), 15, 0)
        .list(&[0, 1])
        .refused_run((1, right, 0), 15, 1)
        .list(&[5, 1, 4, 1])
}

/// What check refuses, run refuses with any list.
fn after_check() -> Example {
    let mut n = Names::new();
    let (y, x) = (n.register(L), n.register(H));
    Example::script(
        "y_L := x_H, with a wrong list",
        ERRORS,
        n,
        assign(y, read(x)),
    )
    .refused(11, 0)
    .list(&[7])
}
