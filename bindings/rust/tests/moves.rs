//! The bound on a script's moves: the figure of `check` by the nodes of a script, and that runs keep to it.
mod kinds;

use kinds::*;
use station::{check, run, Ending, Reason, Run, MAX_STEPS};

/// One level.
const BOOK: [u8; 3] = [0x01, 0x00, 0x01];

/// Session names: the register that every expression reads and every assignment sets, and the signal of every other
/// node. Names from 2 on are owned, one by each declaration.
const X: u16 = 0;
const A: u16 = 1;

/// A script by the kinds of its nodes, each after its children.
type Kinds<'a> = &'a [u8];

/// Kind, a, b, c.
type Entry = [u16; 4];

/// Takes the numbers of children, expressions and owned names in turn while nodes are written.
#[derive(Default)]
struct Writer {
    nodes: Vec<Entry>,
    roots: Vec<u16>,
    names: Vec<Entry>,
    expressions: u16,
}

impl Writer {
    fn child(&mut self) -> u16 {
        self.roots.pop().expect("a child before its parent")
    }

    fn expression(&mut self) -> u16 {
        self.expressions += 1;
        self.expressions - 1
    }

    fn owned(&mut self, kind: u8) -> u16 {
        let owner = self.nodes.len() as u16;
        self.names
            .push([(kind == LOCAL) as u16, 0, owner >> 8, owner & 0xFF]);
        self.names.len() as u16 + A
    }

    fn write(&mut self, kind: u8) {
        let fields = match kind {
            ASSIGN => [X, self.expression(), 0],
            LET => [self.owned(kind), self.expression(), self.child()],
            WHILE => [self.expression(), self.child(), 0],
            EMIT => [A, 0, 0],
            LOCAL => [self.owned(kind), self.child(), 0],
            WATCHING | WHEN => [A, self.child(), 0],
            IF | SEQUENCE | PARALLEL => {
                let (second, first) = (self.child(), self.child());
                match kind {
                    IF => [self.expression(), first, second],
                    _ => [first, second, 0],
                }
            }
            _ => [0, 0, 0],
        };
        let [a, b, c] = fields;
        self.roots.push(self.nodes.len() as u16);
        self.nodes.push([kind.into(), a, b, c]);
    }
}

/// The script file, with every name at level 0.
fn file(kinds: Kinds) -> Vec<u8> {
    let mut writer = Writer::default();
    kinds.iter().for_each(|&kind| writer.write(kind));
    assert_eq!(writer.roots.len(), 1, "one script: {kinds:?}");
    let session = [[0, 0, 0xFF, 0xFF], [1, 0, 0xFF, 0xFF]];
    let names = session.into_iter().chain(writer.names);
    let mut bytes: Vec<u8> = names.flatten().map(|byte| byte as u8).collect();
    let expressions = vec![[1, X, 0, 0]; writer.expressions.into()];
    let mut tail = vec![bytes.len() as u16];
    for list in [expressions, writer.nodes] {
        let wide = |[kind, a, b, c]: Entry| [kind << 8, a, b, c];
        bytes.extend(list.into_iter().flat_map(wide).flat_map(u16::to_be_bytes));
        tail.push(bytes.len() as u16);
    }
    bytes.extend(tail.into_iter().chain([0x5354]).flat_map(u16::to_be_bytes));
    bytes
}

fn figure(kinds: Kinds) -> Option<u32> {
    check(&BOOK, &file(kinds)).expect("accepted").moves
}

fn count(kinds: Kinds, kind: u8) -> u32 {
    kinds.iter().filter(|&&k| k == kind).count() as u32
}

#[test]
fn each_node_but_nil_counts_once() {
    assert_eq!(figure(&[NIL]), Some(0));
    for leaf in [ASSIGN, EMIT] {
        assert_eq!(figure(&[leaf]), Some(1));
    }
    for around in [LET, LOCAL, WATCHING, WHEN] {
        assert_eq!(figure(&[NIL, around]), Some(1));
        assert_eq!(figure(&[EMIT, around]), Some(2));
    }
    for between in [IF, SEQUENCE] {
        assert_eq!(figure(&[NIL, NIL, between]), Some(1));
        assert_eq!(figure(&[NIL, EMIT, between]), Some(2));
        assert_eq!(figure(&[ASSIGN, EMIT, between]), Some(3));
    }
}

#[test]
fn each_parallel_adds_the_nodes_once_more() {
    assert_eq!(figure(&[NIL, NIL, PARALLEL]), Some(2));
    assert_eq!(figure(&[ASSIGN, EMIT, PARALLEL]), Some(6));
    let nested = [EMIT, EMIT, PARALLEL, EMIT, PARALLEL];
    assert_eq!(figure(&nested), Some(15));
    // One after the other counts as much as one inside the other.
    let in_turn = [EMIT, NIL, PARALLEL, EMIT, NIL, PARALLEL, SEQUENCE];
    assert_eq!(figure(&in_turn), Some(15));
}

#[test]
fn a_while_leaves_no_bound_wherever_it_stands() {
    let scripts: [Kinds; 7] = [
        &[NIL, WHILE],
        &[NIL, WHILE, WHILE],
        &[NIL, WHILE, WHEN],
        &[NIL, WHILE, EMIT, SEQUENCE],
        &[EMIT, NIL, WHILE, IF],
        &[EMIT, NIL, WHILE, PARALLEL],
        &[ASSIGN, LET, WHILE, LOCAL, NIL, PARALLEL],
    ];
    for kinds in scripts {
        assert_eq!(figure(kinds), None, "{kinds:?}");
    }
}

/// 256 nodes with the most parallels. These are one fewer than the leaves, so 127 and 128, and one more node.
fn greatest() -> Vec<u8> {
    let mut kinds = vec![EMIT; 128];
    kinds.extend([PARALLEL; 127]);
    kinds.push(WHEN);
    kinds
}

#[test]
fn the_greatest_figure() {
    let mut kinds = greatest();
    assert_eq!(kinds.len(), 256);
    assert_eq!(figure(&kinds), Some(256 * 128));
    kinds[255] = WHILE;
    assert_eq!(figure(&kinds), None);
}

#[test]
fn the_figure_does_not_depend_on_the_book() {
    let script = file(&[EMIT, NIL, PARALLEL]);
    for book in [&BOOK[..], &[2, 0, 3, 0, 2], &[2, 0, 1, 0, 3]] {
        let accepted = check(book, &script).expect("accepted");
        assert_eq!(accepted.moves, Some(4));
    }
}

#[test]
fn a_refused_script_has_no_figure() {
    let mut script = file(&[ASSIGN, WHEN]);
    let refusal = |script: &[u8]| check(&[2, 0, 3, 0, 2], script).expect_err("refused");
    // The signal is at level 1, the register below it.
    script[5] = 1;
    assert_eq!(refusal(&script).reason, Reason::Flow);
    script.pop();
    assert_eq!(refusal(&script).reason, Reason::Tail);
}

/// A run from these values of the session names, with the signal in these instants.
fn run_with(kinds: Kinds, session: [i32; 2], instants: &[u32], limit: u32, log: usize) -> Run {
    let list: Vec<u32> = instants.iter().flat_map(|&i| [i, A.into()]).collect();
    let owned = count(kinds, LET) + count(kinds, LOCAL);
    let mut values = [&session[..], &vec![0; owned as usize]].concat();
    let mut log = vec![0; log];
    let answer = run(&BOOK, &file(kinds), 0, &mut values, limit, &list, &mut log);
    answer.expect("not refused")
}

fn moves(run: Run) -> u32 {
    run.steps - run.instants
}

/// All scripts of so many nodes out of nils, emissions, watchings, whens, sequences and parallels.
fn scripts(nodes: usize) -> Vec<Vec<u8>> {
    if nodes == 1 {
        return vec![vec![NIL], vec![EMIT]];
    }
    let mut all = Vec::new();
    for body in scripts(nodes - 1) {
        all.extend([WATCHING, WHEN].map(|kind| [&body[..], &[kind]].concat()));
    }
    for first in 1..nodes - 1 {
        let seconds = scripts(nodes - 1 - first);
        for p in scripts(first) {
            for q in &seconds {
                all.extend([SEQUENCE, PARALLEL].map(|kind| [&p[..], q, &[kind]].concat()));
            }
        }
    }
    all
}

#[test]
fn no_run_of_a_small_script_passes_its_figure() {
    let lists: [&[u32]; 4] = [&[], &[1], &[2], &[1, 2]];
    let (mut runs, mut above_the_nodes) = (0, 0);
    for kinds in (1..=6).flat_map(scripts) {
        let figure = figure(&kinds).expect("no while");
        let nodes = kinds.len() as u32 - count(&kinds, NIL);
        assert_eq!(figure, nodes * (count(&kinds, PARALLEL) + 1), "{kinds:?}");
        for (list, a) in lists.into_iter().flat_map(|list| [(list, 0), (list, 1)]) {
            let made = moves(run_with(&kinds, [0, a], list, 100, 100));
            assert!(made <= figure, "{made} moves of {kinds:?}");
            runs += 1;
            above_the_nodes += (made > nodes) as u32;
        }
    }
    // Where places are traded, some runs make more moves than there are nodes.
    assert!(runs > 10_000 && above_the_nodes > 100);
}

/// `((if x then x := x else emit a) parallel (let y := x in (when a do x := x))) parallel (local s in (when a do nil))`
const MIXED: [u8; 11] = [
    ASSIGN, EMIT, IF, ASSIGN, WHEN, LET, PARALLEL, NIL, WHEN, LOCAL, PARALLEL,
];

#[test]
fn runs_keep_to_the_figure_with_any_values_limit_and_log() {
    assert_eq!(figure(&MIXED), Some(10 * 3));
    for session in [[0, 0], [0, 1], [1, 0], [i32::MIN, 1]] {
        for (limit, log) in (0..40).flat_map(|limit| (0..10).map(move |log| (limit, log))) {
            let run = run_with(&MIXED, session, &[3, 7], limit, log);
            assert!(moves(run) <= 30, "{run:?}");
        }
    }
}

#[test]
fn the_figure_bounds_moves_and_not_steps() {
    let wait = [NIL, WHEN];
    assert_eq!(figure(&wait), Some(1));
    let of_a_run = |list| {
        let run = run_with(&wait, [0, 0], list, 1000, 0);
        (run.ending, run.steps, moves(run))
    };
    assert_eq!(of_a_run(&[]), (Ending::Spent, 1000, 0));
    assert_eq!(of_a_run(&[999]), (Ending::Finished, 1000, 1));
}

#[test]
fn a_run_of_the_script_with_the_greatest_figure_keeps_to_it() {
    let run = run_with(&greatest(), [0, 0], &[5], MAX_STEPS, 0);
    assert_eq!((run.ending, run.instants), (Ending::Finished, 5));
    assert!(moves(run) <= 256 * 128);
}

#[test]
fn a_script_with_a_while_can_move_in_every_step() {
    let run = run_with(&[NIL, WHILE], [1, 0], &[], MAX_STEPS, 0);
    assert_eq!((run.ending, moves(run)), (Ending::Spent, MAX_STEPS));
}
