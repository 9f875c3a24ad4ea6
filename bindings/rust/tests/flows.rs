//! The flows that a script needs: node by node, beside `check` under several books, and the edges.
mod kinds;

use kinds::*;
use station::{check, flows, Flows, Reason, Refusal, MAX_LEVELS};

/// Registers and signals of the session. The level of each is its number, also that of OWNED, which a node declares.
const A: u8 = 0;
const B: u8 = 1;
const C: u8 = 2;
const P: u8 = 3;
const Q: u8 = 4;
const R: u8 = 5;
const OWNED: u8 = 6;

/// The kinds of expressions.
const CONSTANT: u8 = 0;
const REGISTER: u8 = 1;
const ADD: u8 = 2;

/// Kind, a, b, c: every number here fits into one byte.
type Entry = [u8; 4];

fn names(nodes: &[Entry]) -> Vec<u8> {
    let mut bytes: Vec<u8> = (A..=R)
        .flat_map(|x| [(x >= P) as u8, x, 0xFF, 0xFF])
        .collect();
    let mut numbered = (0..).zip(nodes);
    if let Some((k, [kind, ..])) = numbered.find(|(_, [kind, ..])| [LET, LOCAL].contains(kind)) {
        bytes.extend([(*kind == LOCAL) as u8, OWNED, 0, k]);
    }
    bytes
}

fn script(expressions: &[Entry], nodes: &[Entry]) -> Vec<u8> {
    let wide = |&[kind, a, b, c]: &Entry| [kind, 0, 0, a, 0, b, 0, c];
    let mut bytes = names(nodes);
    let mut tail = vec![bytes.len()];
    for list in [expressions, nodes] {
        bytes.extend(list.iter().flat_map(wide));
        tail.push(bytes.len());
    }
    let offsets = tail.into_iter().map(|offset| offset as u16);
    bytes.extend(offsets.chain([0x5354]).flat_map(u16::to_be_bytes));
    bytes
}

fn needed(expressions: &[Entry], nodes: &[Entry]) -> Vec<(u32, u32)> {
    let answer = flows(&script(expressions, nodes)).expect("not refused");
    answer.pairs().collect()
}

/// A node that tests the signal P and writes nothing: with a nil, nodes 0 and 1 of a script.
const TEST_P: [Entry; 2] = [[NIL, 0, 0, 0], [WHEN, P, 0, 0]];

/// `emit Q; (when P do nil)`, which tests after it has written: nodes 0 to 3 of a script.
const WRITE_Q_TEST_P: [Entry; 4] = [TEST_P[0], TEST_P[1], [EMIT, Q, 0, 0], [SEQUENCE, 2, 1, 0]];

#[test]
fn each_register_of_an_expression_flows_to_what_is_assigned() {
    let sum = |a, b| [[REGISTER, a, 0, 0], [REGISTER, b, 0, 0], [ADD, 0, 1, 0]];
    let assign = [[ASSIGN, C, 2, 0]];
    assert_eq!(needed(&sum(A, B), &assign), [(0, 2), (1, 2)]);
    assert_eq!(needed(&sum(B, C), &assign), [(1, 2)]);
    assert_eq!(needed(&sum(C, C), &assign), []);
}

#[test]
fn a_let_takes_its_expression_and_is_no_write_itself() {
    let expressions = [[REGISTER, A, 0, 0], [CONSTANT, 0, 0, 1]];
    let around = [[LET, OWNED, 0, 0], [WHEN, P, 1, 0]];
    let with_body = |body| [body, around[0], around[1]];
    let nil = with_body([NIL, 0, 0, 0]);
    let assign = with_body([ASSIGN, OWNED, 1, 0]);
    assert_eq!(needed(&expressions[..1], &nil), [(0, 6)]);
    assert_eq!(needed(&expressions, &assign), [(0, 6), (3, 6)]);
}

#[test]
fn a_local_is_no_write_itself() {
    let around = [[LOCAL, OWNED, 0, 0], [WHEN, P, 1, 0]];
    let with_body = |body| [body, around[0], around[1]];
    assert_eq!(needed(&[], &with_body([NIL, 0, 0, 0])), []);
    assert_eq!(needed(&[], &with_body([EMIT, OWNED, 0, 0])), [(3, 6)]);
}

#[test]
fn an_if_joins_its_test_with_both_branches() {
    let expressions = [[REGISTER, A, 0, 0], [CONSTANT, 0, 0, 1]];
    let nodes = [[ASSIGN, B, 1, 0], [EMIT, P, 0, 0], [IF, 0, 0, 1]];
    assert_eq!(needed(&expressions, &nodes), [(0, 1), (0, 3)]);
}

#[test]
fn when_and_watching_join_their_signal_with_the_body() {
    for kind in [WHEN, WATCHING] {
        let nodes = [[EMIT, Q, 0, 0], [kind, P, 0, 0]];
        assert_eq!(needed(&[], &nodes), [(3, 4)]);
    }
}

#[test]
fn a_while_joins_all_that_it_tests_with_all_that_it_writes() {
    let body = &WRITE_Q_TEST_P[..];
    assert_eq!(needed(&[], body), []);
    let nodes = [body, &[[WHILE, 0, 3, 0]]].concat();
    assert_eq!(needed(&[[REGISTER, A, 0, 0]], &nodes), [(0, 4), (3, 4)]);
}

#[test]
fn a_sequence_joins_one_way_and_a_parallel_both() {
    let [nil, test] = TEST_P;
    let joined = |kind, a, b| needed(&[], &[nil, test, [EMIT, Q, 0, 0], [kind, a, b, 0]]);
    assert_eq!(joined(SEQUENCE, 1, 2), [(3, 4)]);
    assert_eq!(joined(SEQUENCE, 2, 1), []);
    assert_eq!(joined(PARALLEL, 1, 2), [(3, 4)]);
    assert_eq!(joined(PARALLEL, 2, 1), [(3, 4)]);
}

#[test]
fn none_but_a_while_joins_a_part_with_itself() {
    let (part, nil) = (&WRITE_Q_TEST_P[..], [NIL, 0, 0, 0]);
    let under = |last| needed(&[], &[part, &[last]].concat());
    let beside = |expressions, last| needed(expressions, &[part, &[nil, last]].concat());
    for kind in [SEQUENCE, PARALLEL] {
        assert_eq!(beside(&[], [kind, 3, 4, 0]), []);
        assert_eq!(beside(&[], [kind, 4, 3, 0]), []);
    }
    for kind in [WHEN, WATCHING] {
        assert_eq!(under([kind, R, 3, 0]), [(5, 4)]);
    }
    let test_a = [[REGISTER, A, 0, 0]];
    assert_eq!(beside(&test_a, [IF, 0, 3, 4]), [(0, 4)]);
}

#[test]
fn what_is_tested_anywhere_in_the_first_part_counts() {
    // (if A then (when P do nil) else (do nil watching Q)); emit R
    let [nil, test] = TEST_P;
    let nodes = [
        nil,
        test,
        nil,
        [WATCHING, Q, 2, 0],
        [IF, 0, 1, 3],
        [EMIT, R, 0, 0],
        [SEQUENCE, 4, 5, 0],
    ];
    let flows = needed(&[[REGISTER, A, 0, 0]], &nodes);
    assert_eq!(flows, [(0, 5), (3, 5), (4, 5)]);
}

/// `while A do (local s in ((when s do C := A + B) parallel (do emit Q watching R)))`
fn many() -> Vec<u8> {
    let expressions = [
        [REGISTER, A, 0, 0],
        [REGISTER, A, 0, 0],
        [REGISTER, B, 0, 0],
        [ADD, 1, 2, 0],
    ];
    let nodes = [
        [ASSIGN, C, 3, 0],
        [WHEN, OWNED, 0, 0],
        [EMIT, Q, 0, 0],
        [WATCHING, R, 2, 0],
        [PARALLEL, 1, 3, 0],
        [LOCAL, OWNED, 4, 0],
        [WHILE, 0, 5, 0],
    ];
    script(&expressions, &nodes)
}

#[test]
fn answers_of_levels_pairs_and_words_agree() {
    let answer = flows(&many()).expect("not refused");
    let expected = [(0, 2), (0, 4), (1, 2), (5, 2), (5, 4), (6, 2), (6, 4)];
    assert_eq!(answer.pairs().collect::<Vec<_>>(), expected);
    let mut words = [0; MAX_LEVELS];
    for (from, to) in expected {
        assert!(answer.needs(from, to));
        words[from as usize] |= 1 << to;
    }
    assert_eq!(answer.words(), words);
}

#[test]
fn numbers_that_are_no_level_need_nothing() {
    let answer = flows(&many()).expect("not refused");
    for level in [15, 16, 17, 31, 32, 34, 36, 64, 1 << 16, u32::MAX] {
        for other in 0..=16 {
            assert!(!answer.needs(level, other) && !answer.needs(other, level));
        }
    }
}

/// A book of all 16 levels, in this order.
fn book(at_or_below: fn(u16, u16) -> bool) -> Vec<u8> {
    let row = |i| (0..16).fold(0, |row, j| row | (at_or_below(i, j) as u16) << j);
    let rows = (0..16).map(row).flat_map(u16::to_be_bytes);
    [16].into_iter().chain(rows).collect()
}

/// Chains from either end, levels side by side, and sets by inclusion.
fn books() -> [Vec<u8>; 4] {
    [
        book(|i, j| i <= j),
        book(|i, j| i >= j),
        book(|i, j| i == 0 || i == j || j == 15),
        book(|i, j| i & j == i),
    ]
}

fn lets_flow(book: &[u8], (from, to): (u32, u32)) -> bool {
    let at = 1 + 2 * from as usize;
    u16::from_be_bytes([book[at], book[at + 1]]) >> to & 1 == 1
}

/// The refusal that `check` gives must be that of `flows`, or flow if the book lacks one of them.
fn agree(book: &[u8], script: &[u8], answer: Result<Flows, Refusal>) {
    let refusal = check(book, script).err();
    match answer {
        Err(expected) => assert_eq!(refusal, Some(expected)),
        Ok(flows) => {
            let lacks_one = flows.pairs().any(|pair| !lets_flow(book, pair));
            let expected = lacks_one.then_some(Reason::Flow);
            assert_eq!(refusal.map(|refusal| refusal.reason), expected);
        }
    }
}

/// Each byte of the script in turn is another one. Levels move, and with them the flows; much is refused.
#[test]
fn check_refuses_for_flow_where_a_book_lacks_one() {
    let (books, right) = (books(), many());
    let mut refused = 0;
    for at in 0..right.len() {
        for byte in (0..=16).chain([0x54, 0xFF]) {
            let mut script = right.clone();
            script[at] = byte;
            let answer = flows(&script);
            refused += answer.is_err() as usize;
            books.iter().for_each(|book| agree(book, &script, answer));
        }
    }
    assert!((1..19 * right.len()).contains(&refused));
}

#[test]
fn levels_to_15_are_taken() {
    let mut script = many();
    for level in 0..=u8::MAX {
        script[4 * C as usize + 1] = level;
        let refusal = flows(&script).err().map(|r| (r.reason, r.place));
        let expected = (level >= MAX_LEVELS as u8).then_some((Reason::Name, C.into()));
        assert_eq!(refusal, expected);
    }
}

#[test]
fn a_script_of_no_bytes_is_refused() {
    let refusal = flows(&[]).expect_err("refused");
    assert_eq!((refusal.reason, refusal.place), (Reason::Tail, 0));
}
