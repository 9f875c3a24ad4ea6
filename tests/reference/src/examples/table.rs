//! A small file for each way to be refused: the rows of 01's table.

use super::script::{assign, constant, emit, file_of_entries, Names};
use super::{Example, H, L, LOW_HIGH};

const TABLE: &str = "01, table of refusals";
const BOOK: &str = "01, 'Level book'";

type Name = [u8; 4];
type Entry = [u8; 8];

// Session names and entries, byte by byte.
const REGISTER: Name = [0, L, 0xFF, 0xFF];
const SIGNAL: Name = [1, L, 0xFF, 0xFF];
const ZERO: Entry = [0, 0, 0, 0, 0, 0, 0, 0];
const NIL: Entry = [0, 0, 0, 0, 0, 0, 0, 0];
const READ_0: Entry = [1, 0, 0, 0, 0, 0, 0, 0];
/// name 0 := expression 0
const ASSIGN: Entry = [1, 0, 0, 0, 0, 0, 0, 0];
/// let name 0 = expression 0 in node 0
const LET: Entry = [2, 0, 0, 0, 0, 0, 0, 0];
/// local name 0 in node 0
const LOCAL: Entry = [7, 0, 0, 0, 0, 0, 0, 0];

pub fn all() -> Vec<Example> {
    let groups = [
        books(),
        tails(),
        counts(),
        names(),
        expressions(),
        nodes(),
        declarations(),
        loose_parts(),
        out_of_reach(),
        several(),
        runs(),
    ];
    groups.into_iter().flatten().collect()
}

fn book(name: &'static str, book: &[u8]) -> Example {
    Example::bytes(name, BOOK, book, file_of_entries(&[], &[], &[NIL]))
}

/// Rows 1 to 3, and a book that passes.
fn books() -> Vec<Example> {
    vec![
        book("no book", &[]).refused(1, 0),
        book("a book of no level", &[0]).refused(1, 0),
        book("a book of 17 levels", &[17; 35]).refused(1, 0),
        book("a book with a byte too many", &[1, 0, 1, 0]).refused(1, 0),
        book("a level without its own bit", &[2, 0, 3, 0, 0]).refused(2, 1),
        book("a bit at n", &[2, 0, 1, 0, 6]).refused(2, 1),
        // 2 is no level: 0 at or below 1, with 1's bit 2 set, is no gap of 0.
        book("a bit at n above", &[2, 0, 3, 0, 6]).refused(2, 1),
        book("two levels both ways", &[2, 0, 3, 0, 3]).refused(2, 0),
        book("not transitive", &[3, 0, 3, 0, 6, 0, 4]).refused(2, 0),
        book("no common upper", &[3, 0, 7, 0, 2, 0, 4]).refused(3, 18),
        book("no common lower", &[3, 0, 5, 0, 6, 0, 4]).refused(3, 1),
        book("one level", &[1, 0, 1]).accepted(0, 0).moves(0),
        book("a diamond", &[4, 0, 15, 0, 10, 0, 12, 0, 8])
            .accepted(3, 0)
            .moves(0),
    ]
}

/// Row 4.
fn tails() -> Vec<Example> {
    let file = |name, bytes: &[u8]| Example::bytes(name, TABLE, &LOW_HIGH, bytes.to_vec());
    let nil = |expressions, nodes, tail, mark| {
        let end = [0, expressions, 0, nodes, 0, tail, 0x53, mark];
        [NIL, end].concat()
    };
    vec![
        file("no script", &[]).refused(4, 0),
        file("7 bytes", &[0, 0, 0, 0, 0, 0x53, 0x54]).refused(4, 0),
        file("nil", &nil(0, 0, 8, 0x54)).accepted(1, 0).moves(0),
        file("no 5354", &nil(0, 0, 8, 0x55)).refused(4, 0),
        file("offsets that fall", &nil(8, 0, 8, 0x54)).refused(4, 0),
        file("a name cut", &nil(2, 2, 8, 0x54)).refused(4, 0),
        file("an expression cut", &nil(0, 4, 8, 0x54)).refused(4, 0),
        file("a node cut", &nil(4, 4, 8, 0x54)).refused(4, 0),
        file("the tail's place missed", &nil(0, 0, 0, 0x54)).refused(4, 0),
    ]
}

fn file(name: &'static str, names: &[Name], expressions: &[Entry], nodes: &[Entry]) -> Example {
    let script = file_of_entries(names, expressions, nodes);
    Example::bytes(name, TABLE, &LOW_HIGH, script)
}

/// Row 5.
fn counts() -> Vec<Example> {
    vec![
        file("no node", &[], &[], &[]).refused(5, 0),
        file("257 nodes", &[], &[], &[NIL; 257]).refused(5, 0),
        file("256 nodes, loose", &[], &[], &[NIL; 256]).refused(9, 256),
        file("257 expressions", &[], &[ZERO; 257], &[NIL]).refused(5, 0),
        file("256 expressions, loose", &[], &[ZERO; 256], &[NIL]).refused(9, 0),
    ]
}

/// Row 6.
fn names() -> Vec<Example> {
    let nil = |name, names: &[Name]| file(name, names, &[], &[NIL]);
    let local = |name, names: &[Name]| file(name, names, &[], &[NIL, LOCAL]);
    vec![
        nil("a name of kind 2", &[REGISTER, [2, L, 0xFF, 0xFF]]).refused(6, 1),
        nil("a name of level 2", &[SIGNAL, [0, 2, 0xFF, 0xFF]]).refused(6, 1),
        nil("an owner past the nodes", &[[1, L, 0, 1]]).refused(6, 0),
        nil("an owner that declares nothing", &[[1, L, 0, 0]]).refused(6, 0),
        local("an owner of the other kind", &[[0, L, 0, 1]]).refused(6, 0),
        local("an owner of another name", &[[1, L, 0, 1], [1, L, 0, 1]]).refused(6, 1),
        local("an owned signal", &[[1, H, 0, 1]])
            .accepted(1, 0)
            .moves(1),
        // Node 1 is broken by its field c, but it declares the name: 8, not 6.
        file(
            "an owner otherwise broken",
            &[[1, L, 0, 1]],
            &[],
            &[NIL, [7, 0, 0, 0, 0, 0, 0, 1]],
        )
        .refused(8, 1),
    ]
}

/// Row 7. The assignment uses expression 0.
fn expressions() -> Vec<Example> {
    let one = |name, e: Entry| file(name, &[REGISTER, SIGNAL], &[e], &[ASSIGN]);
    let two = |name, e: Entry| {
        let assign = [1, 0, 0, 0, 0, 1, 0, 0];
        file(name, &[REGISTER, SIGNAL], &[ZERO, e], &[assign])
    };
    vec![
        one("an expression of kind 9", [9, 0, 0, 0, 0, 0, 0, 0]).refused(7, 0),
        one("a zero byte of 1", [0, 1, 0, 0, 0, 0, 0, 0]).refused(7, 0),
        one("a constant with field a", [0, 0, 0, 1, 0, 0, 0, 0]).refused(7, 0),
        one("a register that is a signal", [1, 0, 0, 1, 0, 0, 0, 0]).refused(7, 0),
        one("a register past the names", [1, 0, 0, 2, 0, 0, 0, 0]).refused(7, 0),
        one("a register with more", [1, 0, 0, 0, 0, 0, 0, 1]).refused(7, 0),
        one("an operand not smaller", [8, 0, 0, 0, 0, 0, 0, 0]).refused(7, 0),
        two("a second operand not smaller", [2, 0, 0, 0, 0, 1, 0, 0]).refused(7, 1),
        two("a sum with more", [2, 0, 0, 0, 0, 0, 0, 1]).refused(7, 1),
        two("not with a second operand", [8, 0, 0, 0, 0, 1, 0, 0]).refused(7, 1),
        two("not", [8, 0, 0, 0, 0, 0, 0, 0]).accepted(0, 0).moves(1),
    ]
}

/// Row 8.
fn nodes() -> Vec<Example> {
    let one = |name, node: Entry| file(name, &[REGISTER, SIGNAL], &[ZERO], &[node]);
    let two = |name, node: Entry| file(name, &[REGISTER, SIGNAL], &[], &[NIL, node]);
    vec![
        one("a node of kind 11", [11, 0, 0, 0, 0, 0, 0, 0]).refused(8, 0),
        one("a node's zero byte of 1", [0, 1, 0, 0, 0, 0, 0, 0]).refused(8, 0),
        one("nil with field a", [0, 0, 0, 1, 0, 0, 0, 0]).refused(8, 0),
        one("an assignment to a signal", [1, 0, 0, 1, 0, 0, 0, 0]).refused(8, 0),
        one("an expression past the list", [1, 0, 0, 0, 0, 1, 0, 0]).refused(8, 0),
        one("an assignment with field c", [1, 0, 0, 0, 0, 0, 0, 1]).refused(8, 0),
        one("an emission of a register", [6, 0, 0, 0, 0, 0, 0, 0]).refused(8, 0),
        one("a child not smaller", [9, 0, 0, 1, 0, 0, 0, 0]).refused(8, 0),
        two("a second child not smaller", [5, 0, 0, 0, 0, 1, 0, 0]).refused(8, 1),
        two("a when of a register", [9, 0, 0, 0, 0, 0, 0, 0]).refused(8, 1),
        two("a when with field c", [9, 0, 0, 1, 0, 0, 0, 1]).refused(8, 1),
        two("a when", [9, 0, 0, 1, 0, 0, 0, 0])
            .accepted(1, 0)
            .moves(1),
    ]
}

/// Row 8, 'declares a name it doesn't own'.
fn declarations() -> Vec<Example> {
    let second_local = [7, 0, 0, 0, 0, 1, 0, 0];
    vec![
        file("a let of a session name", &[REGISTER], &[ZERO], &[NIL, LET]).refused(8, 1),
        file("a local of a session name", &[SIGNAL], &[], &[NIL, LOCAL]).refused(8, 1),
        file(
            "a local of another's name",
            &[[1, L, 0, 1]],
            &[],
            &[NIL, LOCAL, second_local],
        )
        .refused(8, 2),
    ]
}

/// Row 9.
fn loose_parts() -> Vec<Example> {
    let sequence = |a: u8, b: u8| [5, 0, 0, a, 0, b, 0, 0];
    let twice = [2, 0, 0, 0, 0, 0, 0, 0];
    let assign_1 = [1, 0, 0, 0, 0, 1, 0, 0];
    vec![
        file("an expression unused", &[], &[ZERO], &[NIL]).refused(9, 0),
        file(
            "an expression used twice",
            &[REGISTER],
            &[ZERO, twice],
            &[assign_1],
        )
        .refused(9, 0),
        file("a node unused", &[], &[], &[NIL, NIL]).refused(9, 256),
        file("a node used twice", &[], &[], &[NIL, sequence(0, 0)]).refused(9, 256),
        file("expressions first", &[], &[ZERO], &[NIL, NIL]).refused(9, 0),
        file(
            "the smallest node",
            &[],
            &[],
            &[NIL, NIL, NIL, sequence(0, 0)],
        )
        .refused(9, 256),
        file(
            "every node used once",
            &[],
            &[],
            &[NIL, NIL, sequence(1, 0)],
        )
        .accepted(1, 0)
        .moves(1),
    ]
}

/// Row 10. Name 0 is owned by node 1.
fn out_of_reach() -> Vec<Example> {
    let register = [0, L, 0, 1];
    let signal = [1, L, 0, 1];
    let emit_0 = [6, 0, 0, 0, 0, 0, 0, 0];
    let when_0 = [9, 0, 0, 0, 0, 1, 0, 0];
    let watching_0 = [8, 0, 0, 0, 0, 1, 0, 0];
    let assign_0 = [1, 0, 0, 0, 0, 1, 0, 0];
    let join = |kind| [kind, 0, 0, 1, 0, 2, 0, 0];
    let after_local = |name, node: Entry| {
        let nodes = [NIL, LOCAL, node, join(10)];
        file(name, &[signal], &[], &nodes)
    };
    let around_local = |name, node: Entry| file(name, &[signal], &[], &[NIL, LOCAL, node]);
    vec![
        after_local("an emission after the local", emit_0).refused(10, 258),
        around_local("a when around the local", when_0).refused(10, 258),
        around_local("a watching around the local", watching_0).refused(10, 258),
        file("an emission inside", &[signal], &[], &[emit_0, LOCAL])
            .accepted(0, 0)
            .moves(2),
        file("a let of itself", &[register], &[READ_0], &[NIL, LET]).refused(10, 0),
        file(
            "an assignment after the let",
            &[register],
            &[ZERO, ZERO],
            &[NIL, LET, assign_0, join(5)],
        )
        .refused(10, 258),
        // Both the expression and the assignment are outside; expressions first.
        file(
            "a register read after the let",
            &[register],
            &[ZERO, READ_0],
            &[NIL, LET, assign_0, join(5)],
        )
        .refused(10, 1),
    ]
}

/// 'The lowest number that applies is given ... where several entries are at
/// fault, the place is the smallest.'
fn several() -> Vec<Example> {
    let bad_name = [2, L, 0xFF, 0xFF];
    let bad_entry = [99, 0, 0, 0, 0, 0, 0, 0];
    vec![
        Example::bytes("book before tail", TABLE, &[], Vec::new()).refused(1, 0),
        file("names first", &[bad_name], &[bad_entry], &[bad_entry]).refused(6, 0),
        file("then expressions", &[], &[ZERO, bad_entry], &[bad_entry]).refused(7, 1),
        file("then nodes", &[], &[ZERO], &[NIL, bad_entry, bad_entry]).refused(8, 1),
        file("then loose parts", &[], &[ZERO], &[NIL]).refused(9, 0),
    ]
}

/// Rows 12 to 14. Names: x (0), a (1), b (2), of which b is owned.
fn runs() -> Vec<Example> {
    let mut n = Names::new();
    let (x, a, b) = (n.register(L), n.signal(L), n.signal(H));
    let body = super::script::seq(assign(x, constant(4)), emit(a));
    let process = super::script::local(b, body);
    let million = 1_000_000;
    let example = Example::script("local b in (x := 4; emit a)", TABLE, n, process)
        .accepted(0, 0)
        .moves(4)
        .refused_run((2, &[0, 2], million + 1), 12, 0)
        .refused_run((u32::MAX, &[0, 0, 0], 9), 12, 0)
        .refused_run((1, &[0, 2], million + 1), 13, 0)
        .refused_run((1, &[0, 2, 0, 0], 9), 13, 0)
        .refused_run((1, &[], 9), 13, 0)
        .refused_run((1, &[0, 2, 1], million + 1), 13, 1)
        .refused_run((1, &[0, -1, 0], 9), 13, 1)
        .refused_run((1, &[0, 0, 1], 9), 13, 2)
        .refused_run((1, &[-5, 1, 0], million + 1), 14, 0)
        .refused_run((0, &[-5, 1, 0], u32::MAX), 14, 0)
        // Local, x, drop, and an emission that finds a present.
        .run(
            (&[-5, 1, 0], million),
            super::finished(4, 0),
            &[[2, 0, 0, 4]],
            &[4, 1, 0],
        );
    vec![example]
}
