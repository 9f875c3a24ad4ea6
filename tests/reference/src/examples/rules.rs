//! Small programs for single sentences of 01 (values, levels and steps) and of 02's
//! request (b) (division). Answers and steps were worked out by hand from the
//! sentence that each one names.

use super::script::*;
use super::{finished, spent, three_signals, Example, H, L};

const VALUES: &str = "01, 'Script file': values";
const DIVISION: &str = "02 (b), division";
const LEVELS: &str = "01, 'Write level and test level'";
const STEPS: &str = "01, 'Steps'";

const MAX: i32 = 2147483647;
const MIN: i32 = -2147483648;

pub fn all() -> Vec<Example> {
    let groups = [
        values(),
        ties(),
        quotients(),
        halving(),
        tests(),
        needs(),
        watching_changes(),
        when_changes(),
        sequence_changes(),
    ];
    groups.into_iter().flatten().collect()
}

/// x := e, for a low register x.
fn assignment(name: &'static str, e: Expression, value: i32) -> Example {
    let mut n = Names::new();
    let x = n.register(L);
    let example = Example::script(name, VALUES, n, assign(x, e))
        .accepted(0, 0)
        .moves(1);
    let line = [1, 0, 0, value as u32];
    example.run((&[0], 1), finished(1, 0), &[line], &[value])
}

/// 'Results are exact, then clamped. Less, equal and not give 1 or 0.'
fn values() -> Vec<Example> {
    let c = constant;
    vec![
        assignment("65536 * 65536", multiply(c(65536), c(65536)), MAX),
        assignment("65536 * -65536", multiply(c(65536), c(-65536)), MIN),
        assignment("-2147483648 - 1", subtract(c(MIN), c(1)), MIN),
        assignment("-2147483648 * -1", multiply(c(MIN), c(-1)), MAX),
        assignment("-1 < 0", less(c(-1), c(0)), 1),
        assignment("0 < 0", less(c(0), c(0)), 0),
        assignment("0 = 0", equal(c(0), c(0)), 1),
        assignment("not -5", not(c(-5)), 0),
        assignment("not 0", not(c(0)), 1),
        // Clamped before the next operation sees it.
        assignment("(max + 1) - 1", subtract(add(c(MAX), c(1)), c(1)), MAX - 1),
    ]
}

/// x := a / b, for a low register x.
fn division(name: &'static str, a: i32, b: i32, quotient: i32) -> Example {
    let e = divide(constant(a), constant(b));
    Example {
        place: DIVISION,
        ..assignment(name, e, quotient)
    }
}

/// 'A tie to the even one', of both signs, at the ends and by them.
fn ties() -> Vec<Example> {
    vec![
        division("1 / 2", 1, 2, 0),
        division("-1 / 2", -1, 2, 0),
        division("3 / 2", 3, 2, 2),
        division("5 / 2", 5, 2, 2),
        division("-5 / 2", -5, 2, -2),
        division("7 / 2", 7, 2, 4),
        division("7 / -2", 7, -2, -4),
        division("-7 / -2", -7, -2, 4),
        division("2147483647 / 2", MAX, 2, 1073741824),
        division("1073741824 / -2147483648", 1073741824, MIN, 0),
    ]
}

/// 'Division now goes to the nearest whole number', also close to a half, and where
/// it is odd; '5 / 0 remains 0', as does any other number by zero.
fn quotients() -> Vec<Example> {
    vec![
        division("7 / 3", 7, 3, 2),
        division("-7 / 3", -7, 3, -2),
        division("8 / 3", 8, 3, 3),
        division("-8 / 3", -8, 3, -3),
        division("6 / 2", 6, 2, 3),
        division("-2147483648 / 3", MIN, 3, -715827883),
        division("1073741823 / 2147483647", 1073741823, MAX, 0),
        division("1073741824 / 2147483647", 1073741824, MAX, 1),
        division("2147483647 / 2147483646", MAX, MAX - 1, 1),
        division("2147483647 / -2147483648", MAX, MIN, -1),
        division("-2147483648 / 2147483647", MIN, MAX, -1),
        division("-2147483648 / 0", MIN, 0, 0),
    ]
}

/// 'Steps, records ... follow the new rule': while, assign and drop for each of
/// 2, 1, 0 and of -4, -2, -1, 0; then the last while.
fn halving() -> Vec<Example> {
    let mut n = Names::new();
    let x = n.register(L);
    let halves = assign(x, divide(read(x), constant(2)));
    let line = |step, value: i32| [step, 0, 0, value as u32];
    vec![Example::script(
        "while x do x := x / 2",
        DIVISION,
        n,
        while_do(read(x), halves),
    )
    .accepted(0, 0)
    .run(
        (&[3], 99),
        finished(10, 0),
        &[line(2, 2), line(5, 1), line(8, 0)],
        &[0],
    )
    .run(
        (&[-7], 99),
        finished(13, 0),
        &[line(2, -4), line(5, -2), line(8, -1), line(11, 0)],
        &[0],
    )]
}

/// 'A test holds if nonzero.'
fn tests() -> Vec<Example> {
    let choice = |name, value, chosen: u32| {
        let mut n = Names::new();
        let x = n.register(L);
        let branch = |value| assign(x, constant(value));
        let process = if_else(constant(value), branch(1), branch(2));
        Example::script(name, VALUES, n, process)
            .accepted(0, 0)
            .moves(3)
            .run(
                (&[0], 9),
                finished(2, 0),
                &[[2, 0, 0, chosen]],
                &[chosen as i32],
            )
    };
    vec![
        choice("if 2 then x := 1 else x := 2", 2, 1),
        choice("if -1 then x := 1 else x := 2", -1, 1),
        choice("if 0 then x := 1 else x := 2", 0, 2),
    ]
}

/// The needs of assign, let, watching and parallel.
fn needs() -> Vec<Example> {
    let mut n = Names::new();
    let (x, y, a, b) = (n.register(H), n.register(L), n.signal(H), n.signal(L));
    let u = n.register(L);
    let sum = add(constant(0), read(x));
    let high_test = || when(a, nil());
    vec![
        Example::script("y_L := 0 + x_H", LEVELS, n.clone(), assign(y, sum)).refused(11, 0),
        Example::script(
            "let u_L = x_H in nil",
            LEVELS,
            n.clone(),
            let_in(u, read(x), nil()),
        )
        .refused(11, 1),
        Example::script(
            "(emit b_L) watching a_H",
            LEVELS,
            n.clone(),
            watching(emit(b), a),
        )
        .refused(11, 1),
        Example::script(
            "(when a_H do nil) parallel emit b_L",
            LEVELS,
            n.clone(),
            par(high_test(), emit(b)),
        )
        .refused(11, 3),
        Example::script(
            "emit b_L; (when a_H do nil)",
            LEVELS,
            n,
            seq(emit(b), high_test()),
        )
        .accepted(0, 1)
        .moves(3),
    ]
}

/// 'Watching becomes nil if its signal was present, else its body changes.'
fn watching_changes() -> Vec<Example> {
    let (n, a, b, c) = three_signals();
    let inner = || watching(when(c, nil()), b);
    vec![
        // Neither present: it waits. Only b: instant change, then watching goes.
        Example::script(
            "do (do (when c do nil) watching b) watching a",
            STEPS,
            n.clone(),
            watching(inner(), a),
        )
        .accepted(1, 0)
        .moves(3)
        .run((&[0, 0, 0], 3), spent(3, 3), &[], &[0, 0, 0])
        .run((&[0, 1, 0], 9), finished(2, 1), &[], &[0, 0, 0])
        .run((&[1, 0, 0], 9), finished(1, 1), &[], &[0, 0, 0]),
        // The signal is present while the body moves: it isn't killed before the
        // instant changes. Emit, then watching goes.
        Example::script("do emit b watching a", STEPS, n, watching(emit(b), a))
            .accepted(0, 0)
            .moves(2)
            .run((&[1, 0, 0], 9), finished(2, 0), &[[1, 0, 1, 1]], &[1, 1, 0]),
    ]
}

/// 'When changes its body only if its signal was present.' The first instant
/// changes with a present and b absent, so that the left part keeps its body and
/// later waits in it. Emit a, drop, instant change, trade, drop, emit b, drop,
/// instant changes.
fn when_changes() -> Vec<Example> {
    let (n, a, b, c) = three_signals();
    let abort = || watching(when(c, nil()), a);
    let threads = par(when(b, abort()), seq(abort(), emit(b)));
    vec![Example::script(
        "emit a; ((when b do (do (when c do nil) watching a)) par \
         ((do (when c do nil) watching a); emit b))",
        STEPS,
        n,
        seq(emit(a), threads),
    )
    .accepted(0, 0)
    .moves(20)
    .run(
        (&[0, 0, 0], 10),
        spent(10, 4),
        &[[1, 0, 0, 1], [6, 1, 1, 1]],
        &[0, 0, 0],
    )]
}

/// 'A sequence changes its first part.' The second part is not yet begun when a
/// is present: instant change, drop, then it waits.
fn sequence_changes() -> Vec<Example> {
    let (n, a, _, c) = three_signals();
    let abort = || watching(when(c, nil()), a);
    vec![Example::script(
        "(do (when c do nil) watching a); (do (when c do nil) watching a)",
        STEPS,
        n,
        seq(abort(), abort()),
    )
    .accepted(1, 0)
    .moves(5)
    .run((&[1, 0, 0], 5), spent(5, 4), &[], &[0, 0, 0])]
}
