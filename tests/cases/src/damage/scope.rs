//! Refusals 9 to 11: parts not used once, names out of reach, levels that let something flow.

use super::{find, Draft, Sort};
use crate::file::{Entry, File, SESSION};
use crate::rng::Rng;

pub const SORTS: &[Sort] = &[
    Sort::new(9, "expression never used", |draft, rng| {
        spare_expression(draft, rng)
    }),
    Sort::new(9, "node never used", spare_node),
    Sort::new(9, "expression and node never used", |draft, rng| {
        spare_expression(draft, rng)?;
        spare_node(draft, rng)
    }),
    Sort::new(9, "expression used by two expressions", |draft, rng| {
        let list = &mut draft.file.expressions;
        let place = find(rng, list, |e| matches!(e.kind, 2..=7))?;
        list[place].b = rng.below(place) as u16;
        Some(())
    }),
    Sort::new(
        9,
        "expression used by two nodes, or by both",
        |draft, rng| {
            let File {
                nodes, expressions, ..
            } = &mut draft.file;
            let place = find(rng, nodes, |node| {
                File::expression_field(node.kind).is_some()
            })?;
            let field = File::expression_field(nodes[place].kind)?;
            *nodes[place].field_mut(field) = rng.below(expressions.len()) as u16;
            Some(())
        },
    ),
    Sort::new(9, "expression used twice, none unused", |draft, rng| {
        let list = &mut draft.file.expressions;
        let place = 1 + find(rng, list.get(1..)?, |e| e.kind < 2)?;
        list[place] = Entry {
            kind: 8,
            a: rng.below(place) as u16,
            ..Entry::default()
        };
        Some(())
    }),
    Sort::new(9, "node used by one node twice", |draft, rng| {
        let list = &mut draft.file.nodes;
        let place = find(rng, list, |node| matches!(node.kind, 5 | 10))?;
        list[place].b = list[place].a;
        Some(())
    }),
    Sort::new(9, "node used by two nodes", |draft, rng| {
        let list = &mut draft.file.nodes;
        let place = find(rng, list, |node| !File::child_fields(node.kind).is_empty())?;
        let field = rng.pick(File::child_fields(list[place].kind))?;
        *list[place].field_mut(field) = rng.below(place) as u16;
        Some(())
    }),
    Sort::new(9, "node used twice, none unused", |draft, rng| {
        let list = &mut draft.file.nodes;
        let place = 1 + find(rng, list.get(1..)?, |node| node.kind == 0)?;
        list[place] = Entry {
            kind: 5,
            a: rng.below(place) as u16,
            b: rng.below(place) as u16,
            ..Entry::default()
        };
        Some(())
    }),
    Sort::new(10, "register in its let's own expression", |draft, rng| {
        let node = find(rng, &draft.file.nodes, |node| node.kind == 2)?;
        let entry = draft.file.nodes[node];
        let mut reached = Reached::none(&draft.file);
        reached.expression(&draft.file, entry.field(1));
        use_in_expression(draft, rng, entry.field(0), |place| {
            reached.expressions[place]
        })
    }),
    Sort::new(
        10,
        "register in an expression outside its body",
        |draft, rng| {
            let node = find(rng, &draft.file.nodes, |node| node.kind == 2)?;
            let entry = draft.file.nodes[node];
            let reached = Reached::body(&draft.file, node);
            use_in_expression(draft, rng, entry.field(0), |place| {
                !reached.expressions[place]
            })
        },
    ),
    Sort::new(10, "assign to a register outside its body", |draft, rng| {
        use_in_node(draft, rng, 2, |kind| kind == 1)
    }),
    Sort::new(10, "emit of a signal outside its body", |draft, rng| {
        use_in_node(draft, rng, 7, |kind| kind == 6)
    }),
    Sort::new(
        10,
        "watching or when of a signal outside its body",
        |draft, rng| use_in_node(draft, rng, 7, |kind| matches!(kind, 8 | 9)),
    ),
    Sort::new(10, "an expression and a node out of reach", |draft, rng| {
        use_in_node(draft, rng, 7, |kind| matches!(kind, 6 | 8 | 9))?;
        let node = find(rng, &draft.file.nodes, |node| node.kind == 2)?;
        let entry = draft.file.nodes[node];
        let reached = Reached::body(&draft.file, node);
        use_in_expression(draft, rng, entry.field(0), |place| {
            !reached.expressions[place]
        })
    }),
    Sort::new(11, "one level changed", |draft, rng| {
        let name = rng.below(draft.file.names.len());
        let level = rng.below(draft.lattice.count()) as u8;
        draft.file.names.get_mut(name)?.level = level;
        Some(())
    }),
    Sort::new(
        11,
        "one session name to the top, another to the bottom",
        |draft, rng| {
            let names = &mut draft.file.names;
            let session: Vec<usize> = (0..names.len())
                .filter(|&name| names[name].owner == SESSION)
                .collect();
            names[rng.pick(&session)?].level = draft.lattice.top as u8;
            names[rng.pick(&session)?].level = draft.lattice.bottom as u8;
            Some(())
        },
    ),
    Sort::new(11, "all levels at random", |draft, rng| {
        let count = draft.lattice.count();
        for name in &mut draft.file.names {
            name.level = rng.below(count) as u8;
        }
        Some(())
    }),
];

/// The number of a part once another has been put at `place`.
fn after(number: u16, place: usize) -> u16 {
    number.saturating_add(u16::from(usize::from(number) >= place))
}

/// Puts a constant among the expressions, and moves up the numbers behind it.
fn spare_expression(draft: &mut Draft, rng: &mut Rng) -> Option<()> {
    let place = rng.between(0, draft.file.expressions.len());
    let moved = |number: &mut u16| *number = after(*number, place);
    for e in &mut draft.file.expressions {
        File::operand_fields(e.kind)
            .iter()
            .for_each(|&field| moved(e.field_mut(field)));
    }
    for node in &mut draft.file.nodes {
        File::expression_field(node.kind)
            .iter()
            .for_each(|&field| moved(node.field_mut(field)));
    }
    draft.file.expressions.insert(place, Entry::constant(0));
    Some(())
}

/// Puts a nil among the nodes, not as the last, and moves up the numbers behind it.
fn spare_node(draft: &mut Draft, rng: &mut Rng) -> Option<()> {
    let place = rng.below(draft.file.nodes.len());
    let moved = |number: &mut u16| *number = after(*number, place);
    for node in &mut draft.file.nodes {
        File::child_fields(node.kind)
            .iter()
            .for_each(|&field| moved(node.field_mut(field)));
    }
    let owned = draft
        .file
        .names
        .iter_mut()
        .filter(|name| name.owner != SESSION);
    owned.for_each(|name| moved(&mut name.owner));
    draft.file.nodes.insert(place, Entry::default());
    Some(())
}

/// The parts that lie in a node's body or in an expression.
struct Reached {
    expressions: Vec<bool>,
    nodes: Vec<bool>,
}

impl Reached {
    fn none(file: &File) -> Reached {
        Reached {
            expressions: vec![false; file.expressions.len()],
            nodes: vec![false; file.nodes.len()],
        }
    }

    /// The parts in the body of a declaration.
    fn body(file: &File, node: usize) -> Reached {
        let mut reached = Reached::none(file);
        for &field in File::child_fields(file.nodes[node].kind) {
            reached.node(file, file.nodes[node].field(field));
        }
        reached
    }

    /// Falling numbers only, so that a damaged file ends the walk too.
    fn expression(&mut self, file: &File, place: usize) {
        let Some(entry) = file.expressions.get(place) else {
            return;
        };
        self.expressions[place] = true;
        for &field in File::operand_fields(entry.kind) {
            if entry.field(field) < place {
                self.expression(file, entry.field(field));
            }
        }
    }

    fn node(&mut self, file: &File, place: usize) {
        let Some(entry) = file.nodes.get(place) else {
            return;
        };
        self.nodes[place] = true;
        if let Some(field) = File::expression_field(entry.kind) {
            self.expression(file, entry.field(field));
        }
        for &field in File::child_fields(entry.kind) {
            if entry.field(field) < place {
                self.node(file, entry.field(field));
            }
        }
    }
}

/// Turns one to three leaves of expressions at places that fit into the register.
fn use_in_expression(
    draft: &mut Draft,
    rng: &mut Rng,
    register: usize,
    fits: impl Fn(usize) -> bool,
) -> Option<()> {
    let list = &mut draft.file.expressions;
    let places: Vec<usize> = (0..list.len())
        .filter(|&place| list[place].kind < 2 && fits(place))
        .collect();
    rng.pick(&places)?;
    for _ in 0..rng.between(1, 3) {
        list[rng.pick(&places)?] = Entry::register(register);
    }
    Some(())
}

/// Gives one to three nodes of kinds that fit, outside the body of a declaration, its name.
fn use_in_node(
    draft: &mut Draft,
    rng: &mut Rng,
    declaration: u8,
    fits: impl Fn(u8) -> bool,
) -> Option<()> {
    let owner = find(rng, &draft.file.nodes, |node| node.kind == declaration)?;
    let name = draft.file.nodes[owner].a;
    let reached = Reached::body(&draft.file, owner);
    let list = &mut draft.file.nodes;
    let places: Vec<usize> = (0..list.len())
        .filter(|&place| fits(list[place].kind) && !reached.nodes[place])
        .collect();
    for _ in 0..rng.between(1, 3) {
        list[rng.pick(&places)?].a = name;
    }
    Some(())
}
