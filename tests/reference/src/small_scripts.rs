//! Every small script without a while, as far as the most moves ask for it.
//!
//! Assign, let, if and local are left out, and that loses nothing: without a while a
//! script of others makes as many moves with as many nodes. `x := e` moves as `nil; nil`
//! does, `let x = e in P` as `nil; P`, and `local a in P` as `nil; P` with a signal that
//! no instant begins with. An if moves as `nil;` before the branch that it leaves; for
//! each node of the other branch a `nil;` or, for a parallel, a `nil parallel` can stand
//! there, too, and moves once.

use std::cell::Cell;
use std::rc::Rc;

use crate::examples::script;
use crate::tree::{Name, Process};

/// Which kinds of nodes scripts are made of, beside nil, sequence, when and parallel.
#[derive(Clone, Copy, Debug, PartialEq, Eq)]
pub enum Kinds {
    /// No others, and each when has a signal of its own.
    Waits,
    /// Emit and watching; any of their signals and those of whens may be the same.
    All,
}

/// A script file whose names are signals of level 0.
#[derive(Clone, Debug)]
pub struct SignalFile {
    pub script: Vec<u8>,
    pub signals: usize,
}

impl SignalFile {
    pub(crate) fn of(process: &Process) -> SignalFile {
        let mut names = script::Names::new();
        let last = process.signals().into_iter().max();
        let signals = last.map_or(0, |last| last + 1);
        for _ in 0..signals {
            names.signal(0);
        }
        let script = script::file(names, &process.term());
        SignalFile { script, signals }
    }
}

/// Every script of up to so many nodes other than nil, as a file.
pub fn files(kinds: Kinds, nodes: usize) -> Vec<SignalFile> {
    let scripts = up_to(kinds, nodes).into_iter().flatten().flatten();
    scripts.map(|script| SignalFile::of(&script)).collect()
}

/// Scripts by their number of nodes other than nil, then by that of parallel nodes.
type Table = Vec<Vec<Vec<Rc<Process>>>>;

/// Every script of up to so many nodes other than nil.
pub(crate) fn up_to(kinds: Kinds, nodes: usize) -> Table {
    let mut shapes = vec![vec![vec![Rc::new(Process::Nil)]]];
    for k in 1..=nodes {
        let row = (0..=k).map(|p| shapes_of(kinds, &shapes, k, p));
        let row = row.collect();
        shapes.push(row);
    }
    let named = |row: &Vec<Vec<_>>| row.iter().map(|shapes| named(kinds, shapes)).collect();
    shapes.iter().map(named).collect()
}

/// Every shape of k nodes other than nil, p of them parallel, from the smaller ones. Its
/// signals are all 0.
fn shapes_of(kinds: Kinds, smaller: &Table, k: usize, p: usize) -> Vec<Rc<Process>> {
    let mut all = vec![];
    let inner = smaller[k - 1].get(p).into_iter().flatten();
    for body in inner {
        all.push(Process::When(0, Rc::clone(body)));
        if kinds == Kinds::All {
            all.push(Process::Watching(Rc::clone(body), 0));
        }
    }
    if (kinds, k, p) == (Kinds::All, 1, 0) {
        all.push(Process::Emit(0));
    }
    let two = |p: usize| pairs(smaller, k - 1, p).into_iter();
    all.extend(two(p).map(|(first, second)| Process::Sequence(first, second)));
    if let Some(inside) = p.checked_sub(1) {
        all.extend(two(inside).map(|(left, right)| Process::Parallel(left, right)));
    }
    all.into_iter().map(Rc::new).collect()
}

/// Every two shapes of k nodes other than nil, p of them parallel, both together.
fn pairs(smaller: &Table, k: usize, p: usize) -> Vec<(Rc<Process>, Rc<Process>)> {
    let shapes = |k: usize, p: usize| smaller[k].get(p).into_iter().flatten();
    let mut all = vec![];
    for (i, j) in (0..=k).flat_map(|i| (0..=p).map(move |j| (i, j))) {
        for first in shapes(i, j) {
            let seconds = shapes(k - i, p - j);
            all.extend(seconds.map(|second| (Rc::clone(first), Rc::clone(second))));
        }
    }
    all
}

/// The shapes with signals, in every way that is not only another naming.
fn named(kinds: Kinds, shapes: &[Rc<Process>]) -> Vec<Rc<Process>> {
    let named = |shape: &Rc<Process>| {
        let places = shape.signals().len();
        let namings = match kinds {
            Kinds::Waits => vec![(0..places).collect()],
            Kinds::All => namings(places),
        };
        let shape = Rc::clone(shape);
        namings
            .into_iter()
            .map(move |names| with_names(&shape, &names))
    };
    shapes.iter().flat_map(named).collect()
}

/// The process whose signals are these, in the order in which they come.
fn with_names(shape: &Process, names: &[Name]) -> Rc<Process> {
    let place = Cell::new(0);
    shape.with_signals(&|_| names[place.replace(place.get() + 1)])
}

/// Every way to name so many places in which each name is one that stands before it, or
/// the next.
fn namings(places: usize) -> Vec<Vec<Name>> {
    let Some(before) = places.checked_sub(1) else {
        return vec![vec![]];
    };
    let longer = |names: Vec<Name>| {
        let next = names.iter().max().map_or(0, |&last| last + 1);
        let with = move |name| names.iter().copied().chain([name]).collect();
        (0..=next).map(with).collect::<Vec<_>>()
    };
    namings(before).into_iter().flat_map(longer).collect()
}

/// Only of the kinds that small scripts have.
impl Process {
    /// The signals as they come, each as often as it is named.
    pub(crate) fn signals(&self) -> Vec<Name> {
        match self {
            Process::Emit(a) => vec![*a],
            Process::When(a, p) | Process::Watching(p, a) => [vec![*a], p.signals()].concat(),
            Process::Sequence(p, q) | Process::Parallel(p, q) => {
                [p.signals(), q.signals()].concat()
            }
            _ => vec![],
        }
    }

    /// The same process with other signals, asked for in the order in which they come.
    pub(crate) fn with_signals(&self, name: &dyn Fn(Name) -> Name) -> Rc<Process> {
        let process = |p: &Process| p.with_signals(name);
        Rc::new(match self {
            Process::Emit(a) => Process::Emit(name(*a)),
            Process::Watching(p, a) => {
                let a = name(*a);
                Process::Watching(process(p), a)
            }
            Process::When(a, p) => Process::When(name(*a), process(p)),
            Process::Sequence(p, q) => Process::Sequence(process(p), process(q)),
            Process::Parallel(p, q) => Process::Parallel(process(p), process(q)),
            _ => Process::Nil,
        })
    }

    /// The process as a term to be written.
    fn term(&self) -> script::Process {
        let name = |a: &Name| *a as script::Name;
        match self {
            Process::Emit(a) => script::emit(name(a)),
            Process::Watching(p, a) => script::watching(p.term(), name(a)),
            Process::When(a, p) => script::when(name(a), p.term()),
            Process::Sequence(p, q) => script::seq(p.term(), q.term()),
            Process::Parallel(p, q) => script::par(p.term(), q.term()),
            _ => script::nil(),
        }
    }
}

#[cfg(test)]
mod tests {
    use super::*;

    #[test]
    fn there_are_as_many_as_are_counted_by_hand() {
        assert_eq!(namings(3).len(), 5);
        // One node: when, sequence; parallel. With other kinds emit and watching, too.
        let counts = |kinds, k: usize| up_to(kinds, k)[k].iter().map(Vec::len).collect::<Vec<_>>();
        assert_eq!(counts(Kinds::Waits, 1), [2, 1]);
        assert_eq!(counts(Kinds::All, 1), [4, 1]);
        // Two: of each inner one a when; of each inner one and nil, both ways, a sequence
        // or a parallel.
        assert_eq!(counts(Kinds::Waits, 2), [6, 7, 2]);
    }
}
