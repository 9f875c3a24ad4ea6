//! What scripts would need beside the pairs of single nodes: owned names, the sets, the
//! last level, files that are refused, and a job that two firms know. Worked out by
//! hand from 02 (e); a number after a name is its level.

use super::flows::{clear, needs, registers, signals, waits_for, LAST, TOP};
use super::script::*;
use super::{every_level, Example};

const OWNED: &str = "02 (e), 'written level', of owned names";
const SETS: &str = "02 (e), 'the set of other levels'";
const REFUSALS: &str = "02 (e), 'a file that passes 4 to 10'";
const FIRMS: &str = "02 (e), 'before it agrees levels with a neighbour'";

pub fn all() -> Vec<Example> {
    let groups = [
        owned_names(),
        sets(),
        last_level(),
        refused_files(),
        boundary_job(),
    ];
    groups.into_iter().flatten().collect()
}

/// A declaration writes nothing by itself; what its body assigns or emits to the
/// name is a write, and what it tests of it a test, with the name's level.
fn owned_names() -> Vec<Example> {
    let mut n = Names::new();
    let (b, a, u) = (n.signal(2), n.signal(5), n.register(5));
    let after = |name, p| needs(name, OWNED, n.clone(), seq(waits_for(b), p));
    let (m, [c, d]) = signals([5, 6]);
    vec![
        after("(when b2 do nil); (local a5 in nil)", local(a, nil()))
            .accepted(TOP, 2)
            .moves(3)
            .flows(&[]),
        after(
            "(when b2 do nil); (let u5 = 0 in nil)",
            let_in(u, constant(0), nil()),
        )
        .accepted(TOP, 2)
        .moves(3)
        .flows(&[]),
        after("(when b2 do nil); (local a5 in emit a5)", local(a, emit(a)))
            .accepted(5, 2)
            .moves(4)
            .flows(&[(2, 5)]),
        after(
            "(when b2 do nil); (let u5 = 0 in u5 := 0)",
            let_in(u, constant(0), clear(u)),
        )
        .accepted(5, 2)
        .moves(4)
        .flows(&[(2, 5)]),
        needs(
            "local c5 in (when c5 do emit d6)",
            OWNED,
            m,
            local(c, when(c, emit(d))),
        )
        .accepted(6, 5)
        .moves(3)
        .flows(&[(5, 6)]),
    ]
}

/// Two pairs of which a third follows, which is not listed; two levels both ways,
/// which no book allows; a name that the script doesn't use.
fn sets() -> Vec<Example> {
    let (n, [x, y, z]) = registers([1, 2, 3]);
    let (m, _) = registers([9]);
    let rises = seq(assign(y, read(x)), assign(z, read(y)));
    let both_ways = seq(assign(y, read(x)), assign(x, read(y)));
    vec![
        needs("y2 := x1; z3 := y2", SETS, n.clone(), rises)
            .accepted(2, 0)
            .moves(3)
            .flows(&[(1, 2), (2, 3)]),
        needs("y2 := x1; x1 := y2", SETS, n, both_ways)
            .refused(11, 1)
            .flows(&[(1, 2), (2, 1)]),
        needs("nil, with a name of level 9", SETS, m, nil())
            .accepted(TOP, 0)
            .moves(0)
            .flows(&[]),
    ]
}

/// '6 takes levels to 15': the last level is in sets and has one; the next is none.
fn last_level() -> Vec<Example> {
    let last = LAST as u8;
    let (n, [low, high]) = registers([0, last]);
    let (m, _) = registers([last]);
    let (l, _) = registers([0, last + 1]);
    vec![
        needs(
            "y := x0, with y of the last level",
            SETS,
            n.clone(),
            assign(high, read(low)),
        )
        .accepted(TOP, 0)
        .moves(1)
        .flows(&[(0, LAST)]),
        needs(
            "y0 := x, with x of the last level",
            SETS,
            n,
            assign(low, read(high)),
        )
        .refused(11, 0)
        .flows(&[(LAST, 0)]),
        needs("nil, with a name of the last level", REFUSALS, m, nil())
            .accepted(TOP, 0)
            .moves(0)
            .flows(&[]),
        needs("nil, with a level past the last", REFUSALS, l, nil())
            .refused(6, 1)
            .flows_refused(6, 1),
    ]
}

/// y5 := x3 in files that are refused: no pair is listed. The whole of it is there
/// in the last three, with an expression too many, a node too many, and an emission
/// after its local.
fn refused_files() -> Vec<Example> {
    let (x, y, owned) = ([0, 3, 0xFF, 0xFF], [0, 5, 0xFF, 0xFF], [1, 2, 0, 2]);
    let neither = [2, 5, 0xFF, 0xFF];
    let (zero, nil, read_0) = ([0; 8], [0; 8], [1, 0, 0, 0, 0, 0, 0, 0]);
    let unknown = [99, 0, 0, 0, 0, 0, 0, 0];
    let assign = [1, 0, 0, 1, 0, 0, 0, 0];
    let local = [7, 0, 0, 2, 0, 1, 0, 0];
    let emit = [6, 0, 0, 2, 0, 0, 0, 0];
    let seq = |a, b| [5, 0, 0, a, 0, b, 0, 0];
    let refused = |name, script, number, place| {
        Example::bytes(name, REFUSALS, &every_level(), script)
            .refused(number, place)
            .flows_refused(number, place)
    };
    let entries = file_of_entries;
    vec![
        refused("flows of no file", vec![], 4, 0),
        refused("flows of no node", entries(&[x, y], &[read_0], &[]), 5, 0),
        refused(
            "flows with a wrong name",
            entries(&[x, neither], &[read_0], &[assign]),
            6,
            1,
        ),
        refused(
            "flows with a wrong expression",
            entries(&[x, y], &[unknown], &[assign]),
            7,
            0,
        ),
        refused(
            "flows with a wrong node",
            entries(&[x, y], &[read_0], &[unknown]),
            8,
            0,
        ),
        refused(
            "flows with a loose expression",
            entries(&[x, y], &[read_0, zero], &[assign]),
            9,
            1,
        ),
        refused(
            "flows with a loose node",
            entries(&[x, y], &[read_0], &[nil, assign]),
            9,
            256,
        ),
        refused(
            "flows with a name out of reach",
            entries(
                &[x, y, owned],
                &[read_0],
                &[assign, nil, local, emit, seq(0, 2), seq(4, 3)],
            ),
            10,
            259,
        ),
    ]
}

/// Two firms share a record (level 0); a claim (level 1) is sealed. The first script
/// tells the neighbour's record whether there is a claim: data must be let flow from 1
/// to 0. It is refused where the claim is above the record, and passes where it is
/// below. The second sets the claim against a peg, which is shared, and tells the
/// record: data must be let flow both ways, and no book is right for it. The third
/// keeps what it finds beside the claim: data must be let flow from 0 to 1 alone.
fn boundary_job() -> Vec<Example> {
    let mut n = Names::new();
    let (record, claim, peg) = (n.register(0), n.register(1), n.register(0));
    let (offset, kept) = (n.register(1), n.register(1));
    let tells = |x| if_else(read(x), assign(record, constant(1)), nil());
    let measures = |p| let_in(offset, subtract(read(claim), read(peg)), p);
    let above = |name, p| Example::script(name, FIRMS, n.clone(), p);
    let below = |name, p| Example::bytes(name, FIRMS, &[2, 0, 1, 0, 3], file(n.clone(), &p));
    let keeps = || measures(assign(kept, read(offset)));
    vec![
        above("a claim above the record is told", tells(claim))
            .refused(11, 2)
            .flows(&[(1, 0)]),
        below("a claim below the record is told", tells(claim))
            .accepted(0, 1)
            .moves(2)
            .flows(&[(1, 0)]),
        above(
            "a claim above the record is measured and told",
            measures(tells(offset)),
        )
        .refused(11, 2)
        .flows(&[(0, 1), (1, 0)]),
        below(
            "a claim below the record is measured and told",
            measures(tells(offset)),
        )
        .refused(11, 3)
        .flows(&[(0, 1), (1, 0)]),
        above("a claim above the record is measured", keeps())
            .accepted(1, 0)
            .moves(2)
            .flows(&[(0, 1)]),
        below("a claim below the record is measured", keeps())
            .refused(11, 1)
            .flows(&[(0, 1)]),
    ]
}
