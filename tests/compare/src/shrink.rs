//! Smaller cases with the same difference.

use crate::smaller_lists;
use cases::file::{Entry, File, SESSION};
use cases::Case;

/// Tries simpler cases as long as `differs` holds of one.
pub fn shrink(case: &Case, differs: impl Fn(&Case) -> bool) -> Case {
    let mut best = case.clone();
    while let Some(smaller) = simpler(&best).into_iter().find(|case| differs(case)) {
        best = smaller;
    }
    best
}

/// Cases that are simpler than this one in one respect.
fn simpler(case: &Case) -> Vec<Case> {
    let mut all = vec![];
    if let Some(file) = File::read(&case.script) {
        all.extend(smaller_files(&file).iter().map(|smaller| Case {
            script: smaller.bytes(),
            ..case.clone()
        }));
    }
    all.extend((0..case.values.len()).filter_map(|name| without_name(case, name)));
    all.extend(smaller_lists::all(&case.list).into_iter().map(|list| Case {
        list,
        ..case.clone()
    }));
    for limit in [case.limit / 2, case.limit.saturating_sub(1)] {
        if limit < case.limit {
            all.push(Case {
                limit,
                ..case.clone()
            });
        }
    }
    for log in [0, case.log / 2, case.log.saturating_sub(1)] {
        if log < case.log {
            all.push(Case {
                log,
                ..case.clone()
            });
        }
    }
    for place in 0..case.values.len() {
        let mut zeroed = case.clone();
        if std::mem::take(&mut zeroed.values[place]) != 0 {
            all.push(zeroed);
        }
    }
    all
}

/// The case without a name that nothing uses, and without its value.
fn without_name(case: &Case, name: usize) -> Option<Case> {
    let list = smaller_lists::without_name(&case.list, name)?;
    let mut file = File::read(&case.script)?;
    let names_one = |node: &Entry| matches!(node.kind, 1 | 2 | 6..=9);
    let nodes = file.nodes.iter_mut().filter(|node| names_one(node));
    let registers = file.expressions.iter_mut().filter(|e| e.kind == 1);
    for entry in nodes.chain(registers) {
        match usize::from(entry.a) {
            used if used == name => return None,
            other => entry.a -= u16::from(other > name),
        }
    }
    let mut smaller = Case {
        list,
        ..case.clone()
    };
    smaller.values.remove(name);
    if name < file.names.len() {
        file.names.remove(name);
    }
    smaller.script = file.bytes();
    Some(smaller)
}

/// Files in which one node is nil or gives way to a child of its own. Each has fewer nodes, or fewer that
/// are not nil, so that shrinking ends.
fn smaller_files(file: &File) -> Vec<File> {
    let mut all = vec![];
    for (place, &node) in file.nodes.iter().enumerate().rev() {
        for &field in File::child_fields(node.kind) {
            if let Some(&child) = file.nodes.get(node.field(field)) {
                all.push(with_node(file, place, child));
            }
        }
        if node.kind != 0 {
            all.push(with_node(file, place, Entry::default()));
        }
    }
    all.retain(|smaller| weight(smaller) < weight(file));
    all
}

fn weight(file: &File) -> (usize, usize) {
    (
        file.nodes.len(),
        file.nodes.iter().filter(|node| node.kind != 0).count(),
    )
}

/// The parts that the last node needs.
struct Used {
    nodes: Vec<bool>,
    expressions: Vec<bool>,
}

impl Used {
    fn of(file: &File) -> Used {
        let mut used = Used {
            nodes: vec![false; file.nodes.len()],
            expressions: vec![false; file.expressions.len()],
        };
        mark(&mut used.nodes, file.nodes.len().saturating_sub(1));
        for (place, node) in file.nodes.iter().enumerate().rev() {
            if used.nodes[place] {
                let children = File::child_fields(node.kind).iter();
                children.for_each(|&field| mark(&mut used.nodes, node.field(field)));
                let own = File::expression_field(node.kind).into_iter();
                own.for_each(|field| mark(&mut used.expressions, node.field(field)));
            }
        }
        for (place, e) in file.expressions.iter().enumerate().rev() {
            if used.expressions[place] {
                let operands = File::operand_fields(e.kind).iter();
                operands.for_each(|&field| mark(&mut used.expressions, e.field(field)));
            }
        }
        used
    }
}

fn mark(used: &mut [bool], place: usize) {
    used.iter_mut()
        .skip(place)
        .take(1)
        .for_each(|mark| *mark = true);
}

/// The new number of a part: how many parts before it stay.
fn number(used: &[bool], old: usize) -> u16 {
    used.iter().take(old).filter(|&&mark| mark).count() as u16
}

/// The file with another node at a place, without the parts that nothing uses any more.
fn with_node(file: &File, place: usize, node: Entry) -> File {
    let mut smaller = file.clone();
    smaller.nodes[place] = node;
    let used = Used::of(&smaller);
    let mut marks = used.nodes.iter();
    smaller.nodes.retain(|_| marks.next() == Some(&true));
    let mut marks = used.expressions.iter();
    smaller.expressions.retain(|_| marks.next() == Some(&true));
    for node in &mut smaller.nodes {
        for &field in File::child_fields(node.kind) {
            *node.field_mut(field) = number(&used.nodes, node.field(field));
        }
        if let Some(field) = File::expression_field(node.kind) {
            *node.field_mut(field) = number(&used.expressions, node.field(field));
        }
    }
    for e in &mut smaller.expressions {
        for &field in File::operand_fields(e.kind) {
            *e.field_mut(field) = number(&used.expressions, e.field(field));
        }
    }
    name_owners(&mut smaller);
    smaller
}

/// The owner of a name is the node that declares it; without one it is a session name.
fn name_owners(file: &mut File) {
    for (place, name) in (0..).zip(&mut file.names) {
        let declares = |node: &Entry| matches!(node.kind, 2 | 7) && node.a == place;
        let owner = file.nodes.iter().position(declares);
        name.owner = owner.map_or(SESSION, |owner| owner as u16);
    }
}

#[cfg(test)]
mod tests {
    use super::*;
    use crate::difference::compare;
    use crate::engine::Reference;
    use cases::Rng;
    use reference::{Fault, Rules};

    #[test]
    fn a_shrunk_case_still_differs_and_is_small() {
        let right = Reference(Rules::default());
        for fault in [
            Fault::NoTradeWithNil,
            Fault::SequenceChangesBoth,
            Fault::LocalNotReset,
            Fault::ListedStays,
            Fault::ListPlaceLast,
            Fault::RepeatNeedsRoom,
            Fault::WhileBodyUnlisted,
            Fault::ParallelsByDepth,
        ] {
            let wrong = Reference(Rules { fault: Some(fault) });
            let differs = |case: &Case| compare(&right, &wrong, case).is_err();
            let found = (0..20_000)
                .map(|seed| cases::case(&mut Rng::new(seed)))
                .find(differs);
            let small = shrink(&found.expect("a case that shows the fault"), differs);
            assert!(differs(&small));
            let file = File::read(&small.script).expect("a right tail");
            assert!(file.nodes.len() <= 14, "{}", cases::text::show(&file));
            assert!(small.list.len() <= 4, "{:?}", small.list);
        }
    }
}
