//! Who uses an expression or a node (01, 'Script file'): refusal 9.

use crate::fault::{Fault, Rules};
use crate::file::File;

/// An expression or a node of the file.
#[derive(Clone, Copy, Debug, PartialEq, Eq)]
pub enum Part {
    Expression(usize),
    Node(usize),
}

/// Places of expressions and nodes are below this.
pub const PLACES: usize = 512;

impl Part {
    /// A place under 9 and 10: 'expression, or 256 + node'.
    pub fn place(self) -> usize {
        match self {
            Part::Expression(e) => e,
            Part::Node(k) => 256 + k,
        }
    }
}

/// The expressions, then the nodes: 'under 9 and 10 expressions come first'.
pub fn parts(file: &File) -> impl Iterator<Item = Part> {
    let expressions = (0..file.expressions.len()).map(Part::Expression);
    expressions.chain((0..file.nodes.len()).map(Part::Node))
}

/// Every use in the file, as (user, used).
pub fn uses(file: &File) -> impl Iterator<Item = (Part, Part)> + '_ {
    let operands = file.expressions.iter().enumerate().flat_map(|(e, entry)| {
        let used = entry.operands().into_iter().flatten();
        used.map(move |o| (Part::Expression(e), Part::Expression(o)))
    });
    let expressions = file.nodes.iter().enumerate().filter_map(|(k, entry)| {
        let used = entry.expression()?;
        Some((Part::Node(k), Part::Expression(used)))
    });
    let children = file.nodes.iter().enumerate().flat_map(|(k, entry)| {
        let used = entry.children().into_iter().flatten();
        used.map(move |n| (Part::Node(k), Part::Node(n)))
    });
    operands.chain(expressions).chain(children)
}

/// Row 9: 'used not exactly once'. 'Each expression, and each node but the
/// last, is used exactly once.' The last is the script; nothing can use it.
pub fn refusal_9(rules: Rules, file: &File) -> Option<usize> {
    let counts = counts(file);
    let right = |part: Part| match counts[part.place()] {
        0 => part == Part::Node(file.script()) || rules.has(Fault::UnusedPartPasses),
        1 => part != Part::Node(file.script()),
        _ => false,
    };
    let mut loose: Vec<Part> = parts(file).filter(|&part| !right(part)).collect();
    if rules.has(Fault::LooseNodesFirst) {
        loose.sort_by_key(|part| matches!(part, Part::Expression(_)));
    }
    loose.first().map(|part| part.place())
}

/// How often each part is used, by its place.
fn counts(file: &File) -> [u32; PLACES] {
    let mut counts = [0; PLACES];
    for (_, used) in uses(file) {
        counts[used.place()] += 1;
    }
    counts
}
