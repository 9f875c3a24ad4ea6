//! Refusals 12 to 14: reader, values and limit of run.

use super::{Draft, Sort};
use crate::file::SESSION;
use crate::rng::Rng;

/// The greatest step limit.
pub const MOST_STEPS: u32 = 1_000_000;

pub const SORTS: &[Sort] = &[
    Sort::new(12, "reader n", |draft, _| reader(draft, 0)),
    Sort::new(12, "reader n + 1", |draft, _| reader(draft, 1)),
    Sort::new(12, "greatest reader", |draft, _| {
        draft.reader = u32::MAX;
        Some(())
    }),
    Sort::new(12, "reader whose low bits are a level", |draft, rng| {
        draft.reader |= [16, 256, 65_536, 1 << 31][rng.below(4)];
        Some(())
    }),
    Sort::new(13, "one value too few", |draft, _| {
        draft.values.pop().map(|_| ())
    }),
    Sort::new(13, "one value too many", |draft, rng| {
        draft.values.push(rng.below(2) as i32);
        Some(())
    }),
    Sort::new(13, "another number of values", |draft, rng| {
        draft.values.resize(rng.below(70), rng.below(3) as i32);
        Some(())
    }),
    Sort::new(13, "signal 2", |draft, rng| entry(draft, rng, true, 2)),
    Sort::new(13, "signal -1", |draft, rng| entry(draft, rng, true, -1)),
    Sort::new(13, "any other signal", |draft, rng| {
        let value = crate::grow::value(rng);
        entry(draft, rng, true, value)
    }),
    Sort::new(13, "owned name not 0", |draft, rng| {
        let value = [1, -1, i32::MIN, 256, 65_536][rng.below(5)];
        entry(draft, rng, false, value)
    }),
    Sort::new(14, "limit 1,000,001", |draft, _| {
        draft.limit = MOST_STEPS + 1;
        Some(())
    }),
    Sort::new(14, "greatest limit", |draft, _| {
        draft.limit = u32::MAX;
        Some(())
    }),
    Sort::new(14, "any limit above", |draft, rng| {
        draft.limit = rng.between(MOST_STEPS as usize + 1, u32::MAX as usize) as u32;
        Some(())
    }),
];

fn reader(draft: &mut Draft, above: u32) -> Option<()> {
    draft.reader = draft.lattice.count() as u32 + above;
    Some(())
}

/// Gives one to three session signals, or owned names, a value.
fn entry(draft: &mut Draft, rng: &mut Rng, session_signal: bool, value: i32) -> Option<()> {
    let names = &draft.file.names;
    let fits = |&name: &usize| match session_signal {
        true => names[name].kind == 1 && names[name].owner == SESSION,
        false => names[name].owner != SESSION,
    };
    let all: Vec<usize> = (0..names.len().min(draft.values.len()))
        .filter(fits)
        .collect();
    for _ in 0..rng.between(1, 3) {
        draft.values[rng.pick(&all)?] = value;
    }
    Some(())
}
