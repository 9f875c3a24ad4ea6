//! How long the instrument can be busy (02 (f)): 'With k nodes other than nil and p
//! parallel nodes, such a script makes at most k × (p + 1) moves in its whole run.'

use crate::check::well_formed;
use crate::fault::{Fault, Rules};
use crate::refusal::Refusal;
use crate::tree::{Expression, Process};

/// What check says of the moves: whether there is a figure, 1 or 0, and the figure.
#[derive(Clone, Copy, Debug, Default, PartialEq, Eq)]
pub struct MoveBound {
    pub bounded: u32,
    pub moves: u32,
}

/// 'Give the figure with the check, or "none" where there is a while.'
pub fn move_bound(rules: Rules, script: &Process) -> MoveBound {
    let bounded = !holds_while(rules, script);
    let moves = figure(rules, nodes(rules, script));
    match (bounded, rules.fault) {
        (true, Some(Fault::NoFigureOfZero)) if moves == 0 => MoveBound::default(),
        (true, _) => MoveBound { bounded: 1, moves },
        (false, Some(Fault::WhileHasFigure)) => MoveBound { bounded: 1, moves },
        (false, Some(Fault::FigureOfWhileKept)) => MoveBound { bounded: 0, moves },
        (false, Some(Fault::WhileIsBoundedByNothing)) => MoveBound {
            bounded: 1,
            moves: 0,
        },
        (false, _) => MoveBound::default(),
    }
}

/// What stands beside a refusal: 'A refusal's other returned numbers are 0' (01). A
/// planted fault keeps the figure of a file whose nodes make a tree.
pub fn bound_of_refused(rules: Rules, refusal: Refusal, book: &[u8], script: &[u8]) -> MoveBound {
    if rules.has(Fault::RefusedIsBounded) {
        return MoveBound {
            bounded: 1,
            moves: 0,
        };
    }
    let kept = refusal.number == 11 && rules.has(Fault::FigureKeptByRefusal);
    let file = kept
        .then(|| well_formed(rules, book, script).ok())
        .flatten();
    file.map_or(MoveBound::default(), |(_, file)| {
        move_bound(rules, &Process::of(&file, file.script()))
    })
}

/// How many nodes a script has.
#[derive(Clone, Copy, Default)]
struct Nodes {
    /// k: nodes other than nil.
    other_than_nil: u32,
    /// p: parallel nodes.
    parallel: u32,
    /// The most parallel nodes inside each other, which only a planted fault asks for.
    nested: u32,
}

impl Nodes {
    fn and(self, other: Nodes) -> Nodes {
        Nodes {
            other_than_nil: self.other_than_nil + other.other_than_nil,
            parallel: self.parallel + other.parallel,
            nested: self.nested.max(other.nested),
        }
    }

    fn and_one(mut self) -> Nodes {
        self.other_than_nil += 1;
        self
    }

    fn and_parallel(self, rules: Rules) -> Nodes {
        let counts = u32::from(!rules.has(Fault::ParallelIsNoNode));
        Nodes {
            other_than_nil: self.other_than_nil + counts,
            parallel: self.parallel + 1,
            nested: self.nested + 1,
        }
    }
}

/// k × (p + 1)
fn figure(rules: Rules, nodes: Nodes) -> u32 {
    let (k, p) = (nodes.other_than_nil, nodes.parallel);
    match rules.fault {
        Some(Fault::ParallelsForgotten) => k,
        Some(Fault::ParallelsWithoutOne) => k * p,
        Some(Fault::OneAddedToProduct) => k * p + 1,
        Some(Fault::FigureOneLess) => (k * (p + 1)).saturating_sub(1),
        Some(Fault::FigureLessParallels) => (k * (p + 1)).saturating_sub(p),
        Some(Fault::ParallelsCountAsOne) => k * (p.min(1) + 1),
        Some(Fault::ParallelsByDepth) => k * (nodes.nested + 1),
        Some(Fault::FigureInOneByte) => k * (p + 1) % 256,
        _ => k * (p + 1),
    }
}

/// Every node of an accepted file lies in the script, and is met once.
fn nodes(rules: Rules, process: &Process) -> Nodes {
    let nodes = |p: &Process| nodes(rules, p);
    match process {
        Process::Nil if rules.has(Fault::NilIsCounted) => Nodes::default().and_one(),
        Process::Nil => Nodes::default(),
        Process::Assign(..) | Process::Emit(_) => Nodes::default().and_one(),
        Process::Let(_, _, p) | Process::Local(_, p) => nodes(p).and_one(),
        Process::While(_, p) | Process::Watching(p, _) | Process::When(_, p) => nodes(p).and_one(),
        Process::If(_, p, q) => branches(rules, nodes(p), nodes(q)).and_one(),
        Process::Sequence(p, q) => nodes(p).and(nodes(q)).and_one(),
        Process::Parallel(p, q) => nodes(p).and(nodes(q)).and_parallel(rules),
    }
}

/// Both branches of an if are nodes of the script, though a run takes one of them.
fn branches(rules: Rules, first: Nodes, second: Nodes) -> Nodes {
    match rules.fault {
        Some(Fault::FirstBranchCounts) => first,
        Some(Fault::SecondBranchCounts) => second,
        Some(Fault::LargerBranchCounts) if first.other_than_nil < second.other_than_nil => second,
        Some(Fault::LargerBranchCounts) => first,
        _ => first.and(second),
    }
}

/// Whether there is a while: anywhere, and also one that never runs.
fn holds_while(rules: Rules, process: &Process) -> bool {
    let inside = |p: &Process| !rules.has(Fault::NestedWhileOverlooked) && holds_while(rules, p);
    let overlooked = |fault: Fault, p: &Process| !rules.has(fault) && inside(p);
    match process {
        Process::Nil | Process::Assign(..) | Process::Emit(_) => false,
        Process::While(e, p) if rules.has(Fault::DeadWhileOverlooked) => !is_zero(e) || inside(p),
        Process::While(..) => true,
        Process::Let(_, _, p) | Process::Local(_, p) => inside(p),
        Process::Watching(p, _) | Process::When(_, p) => inside(p),
        Process::If(_, p, q) => {
            overlooked(Fault::WhileInBranchOverlooked, p)
                || overlooked(Fault::WhileInBranchOverlooked, q)
        }
        Process::Sequence(p, q) | Process::Parallel(p, q) => {
            inside(p) || overlooked(Fault::WhileInSecondPartOverlooked, q)
        }
    }
}

fn is_zero(e: &Expression) -> bool {
    matches!(e, Expression::Constant(0))
}
