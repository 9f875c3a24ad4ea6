//! Refusal 7: wrong expressions.

use super::{find, not_zero, past, Draft, Sort};
use crate::file::{Entry, File};
use crate::rng::Rng;

pub const SORTS: &[Sort] = &[
    Sort::new(7, "kind 9", |draft, rng| {
        change(draft, rng, |_| true, |e, _| e.kind = 9)
    }),
    Sort::new(7, "any kind above 8", |draft, rng| {
        change(
            draft,
            rng,
            |_| true,
            |e, rng| e.kind = rng.between(9, 255) as u8,
        )
    }),
    Sort::new(7, "zero byte", |draft, rng| {
        change(
            draft,
            rng,
            |_| true,
            |e, rng| e.zero = rng.between(1, 255) as u8,
        )
    }),
    Sort::new(7, "constant with field a", |draft, rng| {
        change(draft, rng, |e| e.kind == 0, |e, rng| e.a = not_zero(rng))
    }),
    Sort::new(7, "register with field b", |draft, rng| {
        change(draft, rng, |e| e.kind == 1, |e, rng| e.b = not_zero(rng))
    }),
    Sort::new(7, "register with field c", |draft, rng| {
        change(draft, rng, |e| e.kind == 1, |e, rng| e.c = not_zero(rng))
    }),
    Sort::new(7, "two operands with field c", |draft, rng| {
        change(
            draft,
            rng,
            |e| matches!(e.kind, 2..=7),
            |e, rng| e.c = not_zero(rng),
        )
    }),
    Sort::new(7, "not with field b", |draft, rng| {
        change(draft, rng, |e| e.kind == 8, |e, rng| e.b = not_zero(rng))
    }),
    Sort::new(7, "not with field c", |draft, rng| {
        change(draft, rng, |e| e.kind == 8, |e, rng| e.c = not_zero(rng))
    }),
    Sort::new(7, "operand is the expression itself", |draft, rng| {
        operand(draft, rng, |place, _| place)
    }),
    Sort::new(7, "operand above the expression", |draft, rng| {
        operand(draft, rng, |place, rng| place + rng.between(1, 4))
    }),
    Sort::new(7, "operand past the expressions", |draft, rng| {
        let count = draft.file.expressions.len();
        operand(draft, rng, |_, rng| past(rng, count))
    }),
    Sort::new(7, "register field names a signal", |draft, rng| {
        let names = &draft.file.names;
        let signals: Vec<usize> = (0..names.len())
            .filter(|&name| names[name].kind == 1)
            .collect();
        let signal = rng.pick(&signals)? as u16;
        change(draft, rng, |e| e.kind == 1, |e, _| e.a = signal)
    }),
    Sort::new(7, "register field past the names", |draft, rng| {
        let count = draft.file.names.len();
        change(
            draft,
            rng,
            |e| e.kind == 1,
            |e, rng| {
                e.a = past(rng, count) as u16;
            },
        )
    }),
];

/// Changes one to three expressions that fit.
fn change(
    draft: &mut Draft,
    rng: &mut Rng,
    fits: impl Fn(&Entry) -> bool,
    damage: impl Fn(&mut Entry, &mut Rng),
) -> Option<()> {
    for _ in 0..rng.between(1, 3) {
        let place = find(rng, &draft.file.expressions, &fits)?;
        damage(&mut draft.file.expressions[place], rng);
        if rng.chance(2, 3) {
            break;
        }
    }
    Some(())
}

/// Sets an operand of an expression to what `new` makes of the expression's number.
fn operand(draft: &mut Draft, rng: &mut Rng, new: impl Fn(usize, &mut Rng) -> usize) -> Option<()> {
    let has_operands = |e: &Entry| !File::operand_fields(e.kind).is_empty();
    let place = find(rng, &draft.file.expressions, has_operands)?;
    let field = rng.pick(File::operand_fields(draft.file.expressions[place].kind))?;
    *draft.file.expressions[place].field_mut(field) = new(place, rng) as u16;
    Some(())
}
