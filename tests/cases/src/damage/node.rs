//! Refusal 8: wrong nodes.

use super::{find, not_zero, past, Draft, Sort};
use crate::file::{Entry, File, SESSION};
use crate::rng::Rng;

pub const SORTS: &[Sort] = &[
    Sort::new(8, "kind 11", |draft, rng| {
        change(draft, rng, undeclaring, |node, _| node.kind = 11)
    }),
    Sort::new(8, "any kind above 10", |draft, rng| {
        change(draft, rng, undeclaring, |node, rng| {
            node.kind = rng.between(11, 255) as u8
        })
    }),
    Sort::new(8, "zero byte", |draft, rng| {
        change(
            draft,
            rng,
            |_| true,
            |node, rng| node.zero = rng.between(1, 255) as u8,
        )
    }),
    Sort::new(8, "nil with field a", |draft, rng| unused(draft, rng, 0, 0)),
    Sort::new(8, "nil with field b", |draft, rng| unused(draft, rng, 0, 1)),
    Sort::new(8, "nil with field c", |draft, rng| unused(draft, rng, 0, 2)),
    Sort::new(8, "assign with field c", |draft, rng| {
        unused(draft, rng, 1, 2)
    }),
    Sort::new(8, "while with field c", |draft, rng| {
        unused(draft, rng, 4, 2)
    }),
    Sort::new(8, "sequence with field c", |draft, rng| {
        unused(draft, rng, 5, 2)
    }),
    Sort::new(8, "emit with field b", |draft, rng| {
        unused(draft, rng, 6, 1)
    }),
    Sort::new(8, "emit with field c", |draft, rng| {
        unused(draft, rng, 6, 2)
    }),
    Sort::new(8, "local with field c", |draft, rng| {
        unused(draft, rng, 7, 2)
    }),
    Sort::new(8, "watching with field c", |draft, rng| {
        unused(draft, rng, 8, 2)
    }),
    Sort::new(8, "when with field c", |draft, rng| {
        unused(draft, rng, 9, 2)
    }),
    Sort::new(8, "parallel with field c", |draft, rng| {
        unused(draft, rng, 10, 2)
    }),
    Sort::new(8, "child is the node itself", |draft, rng| {
        child(draft, rng, |place, _| place)
    }),
    Sort::new(8, "child above the node", |draft, rng| {
        child(draft, rng, |place, rng| place + rng.between(1, 4))
    }),
    Sort::new(8, "child past the nodes", |draft, rng| {
        let count = draft.file.nodes.len();
        child(draft, rng, |_, rng| past(rng, count))
    }),
    Sort::new(8, "expression past the expressions", |draft, rng| {
        let count = draft.file.expressions.len();
        let place = find(rng, &draft.file.nodes, |node| {
            File::expression_field(node.kind).is_some()
        })?;
        let field = File::expression_field(draft.file.nodes[place].kind)?;
        *draft.file.nodes[place].field_mut(field) = past(rng, count) as u16;
        Some(())
    }),
    Sort::new(8, "assign to a signal", |draft, rng| {
        other_kind(draft, rng, 1)
    }),
    Sort::new(8, "emit of a register", |draft, rng| {
        other_kind(draft, rng, 6)
    }),
    Sort::new(8, "watching a register", |draft, rng| {
        other_kind(draft, rng, 8)
    }),
    Sort::new(8, "when of a register", |draft, rng| {
        other_kind(draft, rng, 9)
    }),
    Sort::new(8, "name past the names", |draft, rng| {
        let count = draft.file.names.len();
        let uses = |node: &Entry| matches!(node.kind, 1 | 6 | 8 | 9);
        change(draft, rng, uses, |node, rng| {
            node.a = past(rng, count) as u16;
        })
    }),
    Sort::new(8, "declares a session name", |draft, rng| {
        disown(draft, rng).map(|_| ())
    }),
    Sort::new(8, "declares a name past the names", |draft, rng| {
        let node = disown(draft, rng)?;
        draft.file.nodes[node].a = rng.between(draft.file.names.len(), 65535) as u16;
        Some(())
    }),
    Sort::new(8, "declares any other name", |draft, rng| {
        let node = disown(draft, rng)?;
        draft.file.nodes[node].a = rng.below(draft.file.names.len()) as u16;
        Some(())
    }),
    Sort::new(8, "two nodes declare one name", |draft, rng| {
        let node = disown(draft, rng)?;
        let kind = draft.file.nodes[node].kind;
        let names = &draft.file.names;
        let owned =
            |&name: &usize| names[name].owner != SESSION && names[name].kind == u8::from(kind == 7);
        let all: Vec<usize> = (0..names.len()).filter(owned).collect();
        draft.file.nodes[node].a = rng.pick(&all)? as u16;
        Some(())
    }),
];

/// Whether a node declares no name. A declaration of another kind would get refusal 6 at its name.
fn undeclaring(node: &Entry) -> bool {
    !matches!(node.kind, 2 | 7)
}

/// Changes one to three nodes that fit.
fn change(
    draft: &mut Draft,
    rng: &mut Rng,
    fits: impl Fn(&Entry) -> bool,
    damage: impl Fn(&mut Entry, &mut Rng),
) -> Option<()> {
    for _ in 0..rng.between(1, 3) {
        let place = find(rng, &draft.file.nodes, &fits)?;
        damage(&mut draft.file.nodes[place], rng);
        if rng.chance(2, 3) {
            break;
        }
    }
    Some(())
}

fn unused(draft: &mut Draft, rng: &mut Rng, kind: u8, field: usize) -> Option<()> {
    change(
        draft,
        rng,
        |node| node.kind == kind,
        |node, rng| *node.field_mut(field) = not_zero(rng),
    )
}

/// Sets a child of a node to what `new` makes of the node's number.
fn child(draft: &mut Draft, rng: &mut Rng, new: impl Fn(usize, &mut Rng) -> usize) -> Option<()> {
    let place = find(rng, &draft.file.nodes, |node| {
        !File::child_fields(node.kind).is_empty()
    })?;
    let field = rng.pick(File::child_fields(draft.file.nodes[place].kind))?;
    *draft.file.nodes[place].field_mut(field) = new(place, rng) as u16;
    Some(())
}

/// Gives a node of the kind a name of the kind that it does not take.
fn other_kind(draft: &mut Draft, rng: &mut Rng, kind: u8) -> Option<()> {
    let wrong = u8::from(kind == 1);
    let names = &draft.file.names;
    let all: Vec<usize> = (0..names.len())
        .filter(|&name| names[name].kind == wrong)
        .collect();
    let name = rng.pick(&all)? as u16;
    change(
        draft,
        rng,
        |node| node.kind == kind,
        |node, _| node.a = name,
    )
}

/// Makes the name that some node declares a session name, and gives the node.
fn disown(draft: &mut Draft, rng: &mut Rng) -> Option<usize> {
    let node = find(rng, &draft.file.nodes, |node| !undeclaring(node))?;
    let name = usize::from(draft.file.nodes[node].a);
    draft.file.names.get_mut(name)?.owner = SESSION;
    Some(node)
}
