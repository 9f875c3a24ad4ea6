//! The comparison: the library against the reference on seeded cases.

use crate::books;
use crate::coverage::{self, declares_in_a_loop, Coverage};
use crate::difference::{compare, show, Difference};
use crate::divisions;
use crate::emissions;
use crate::engine::{Engine, Raw, Reference, Wrapper, FLOWS_WORDS};
use crate::flow_claims;
use crate::flows;
use crate::lists;
use crate::move_claims;
use crate::moves;
use crate::outcome::{outcome, wrong_flows, wrong_out, Outcome};
use crate::pair_levels;
use crate::shrink::shrink;
use crate::tightest;
use cases::any_levels::with_other_levels;
use cases::file::File;
use cases::list::{in_order, pairs, session_signals};
use cases::order::MOST_LEVELS;
use cases::{Case, Made, Rng};
use reference::{Fault, Rules};

/// The most steps of a run that is run again with small changes.
const MOST_STEPS_AGAIN: u32 = 2000;

/// Wrong numbers of sets, of words of `out`, or of both.
const WRONG_FLOWS: [(usize, usize); 9] = [
    (0, FLOWS_WORDS),
    (MOST_LEVELS - 1, FLOWS_WORDS),
    (MOST_LEVELS + 1, FLOWS_WORDS),
    (2 * MOST_LEVELS, FLOWS_WORDS),
    (MOST_LEVELS, 0),
    (MOST_LEVELS, FLOWS_WORDS - 1),
    (MOST_LEVELS, FLOWS_WORDS + 1),
    (FLOWS_WORDS, MOST_LEVELS),
    (0, 0),
];

/// The seed of a case: its number under the seed of the sweep.
pub fn case_seed(seed: u64, number: u64) -> u64 {
    (seed << 32).wrapping_add(number)
}

/// Compares `count` cases.
pub fn sweep(count: u64, seed: u64) -> Result<Coverage, Difference> {
    let mut coverage = Coverage::default();
    for number in 0..count {
        one(case_seed(seed, number), &mut coverage)?;
    }
    Ok(coverage)
}

/// Calls alternate between the C interface and the wrapper.
pub fn library(seed: u64) -> &'static dyn Engine {
    match seed % 2 {
        0 => &Raw,
        _ => &Wrapper,
    }
}

/// Compares the case of a seed, and what belongs to it.
pub fn one(seed: u64, coverage: &mut Coverage) -> Result<(), Difference> {
    let mut rng = Rng::new(seed);
    let made = cases::made(&mut rng);
    let outcome = agree(seed, &made.case)?;
    let difference = |says: String| Difference::new(seed, &made.case, says);
    if rng.chance(1, 3) {
        if let Some(result) = tightest::compare(&made.case, &outcome) {
            result.map_err(difference)?;
            coverage.extra(coverage::PAIRS_COMPARED);
        }
    }
    if rng.chance(1, 16) {
        let words = [0, 1, 2, 3, 4, 4, 5, 7, 8, 12, 24][rng.below(11)];
        wrong_out(&Raw, &made.case, words).map_err(difference)?;
        coverage.extra(coverage::WRONG_OUT);
        if words == 4 {
            coverage.extra(coverage::FOUR_WORDS);
        }
        let (sets, words) = WRONG_FLOWS[rng.below(WRONG_FLOWS.len())];
        wrong_flows(&Raw, &made.case, sets, words).map_err(difference)?;
        coverage.extra(coverage::WRONG_FLOWS);
    }
    if enters_local_again(&made.case, &outcome) {
        coverage.extra(coverage::ENTERED_AGAIN);
    }
    coverage.record(&made, &outcome);
    coverage.record_book(books::reached(&made.case, &outcome));
    if outcome.accepted() {
        coverage.record_pair_levels(pair_levels::reached(&made.case, &outcome));
    }
    record_list(seed, &made.case, &outcome, coverage).map_err(difference)?;
    record_divisions(seed, &made.case, &outcome, coverage).map_err(difference)?;
    record_emissions(&made.case, &outcome, &mut rng, coverage);
    record_moves(&made.case, &outcome, &mut rng, coverage);
    record_flows(seed, &made.case, &outcome, &mut rng, coverage)?;
    other_levels(seed, &made.case, &mut rng, coverage)?;
    near(seed, &made, &outcome, &mut rng, coverage)
}

fn record_list(
    seed: u64,
    case: &Case,
    outcome: &Outcome,
    coverage: &mut Coverage,
) -> Result<(), String> {
    if outcome.refusal() == 0 && !case.list.is_empty() {
        coverage.record_list(lists::reached(library(seed), case, outcome)?);
    }
    Ok(())
}

fn record_divisions(
    seed: u64,
    case: &Case,
    outcome: &Outcome,
    coverage: &mut Coverage,
) -> Result<(), String> {
    if outcome.refusal() == 0 {
        coverage.record_divisions(divisions::reached(library(seed), case, outcome)?);
    }
    Ok(())
}

/// Of one run in three, and of none of many steps, since each note asks for a run of its own.
fn record_emissions(case: &Case, outcome: &Outcome, rng: &mut Rng, coverage: &mut Coverage) {
    let is_short = outcome.steps() <= MOST_STEPS_AGAIN;
    if outcome.refusal() == 0 && is_short && rng.chance(1, 3) {
        coverage.record_emissions(emissions::reached(case, outcome));
    }
}

/// What the figure and the moves show; by wrong rules of one script in four, since each asks for it anew.
fn record_moves(case: &Case, outcome: &Outcome, rng: &mut Rng, coverage: &mut Coverage) {
    if rng.chance(1, 4) {
        coverage.record_moves(moves::shown(case, outcome));
    }
    if outcome.accepted() {
        coverage.record_moves(moves::said(case, outcome));
    }
    let is_short = outcome.steps() <= MOST_STEPS_AGAIN;
    match outcome.figure() {
        Some(figure) if outcome.refusal() == 0 && is_short => {
            coverage.record_moves(moves::ran(case, outcome, figure));
        }
        _ => {}
    }
}

/// What 02 (e) says of flows and check holds, and what the flows show; by wrong rules of one script in
/// two, since each asks for them anew.
fn record_flows(
    seed: u64,
    case: &Case,
    outcome: &Outcome,
    rng: &mut Rng,
    coverage: &mut Coverage,
) -> Result<(), Difference> {
    flow_claims::hold(library(seed), case, outcome)
        .map_err(|says| Difference::new(seed, case, says))?;
    coverage.record_flows(flows::reached(case, outcome));
    if outcome.flows.refusal() == 0 && rng.chance(1, 2) {
        coverage.record_flows(flows::shown(case, outcome));
    }
    Ok(())
}

/// The case again, now and then, with any levels for the names of its script.
fn other_levels(
    seed: u64,
    case: &Case,
    rng: &mut Rng,
    coverage: &mut Coverage,
) -> Result<(), Difference> {
    let file = File::read(&case.script).filter(|_| rng.chance(1, 3));
    let Some(file) = file else {
        return Ok(());
    };
    let other = Case {
        script: with_other_levels(rng, &file).bytes(),
        ..case.clone()
    };
    let outcome = agree(seed, &other)?;
    coverage.extra(coverage::OTHER_LEVELS);
    record_flows(seed, &other, &outcome, rng, coverage)
}

/// Whether a local is entered again while its signal is present: the outcome is another if the signal stays.
fn enters_local_again(case: &Case, right: &Outcome) -> bool {
    if right.refusal() != 0
        || !File::read(&case.script).is_some_and(|file| declares_in_a_loop(&file))
    {
        return false;
    }
    let rules = Rules {
        fault: Some(Fault::LocalNotReset),
    };
    outcome(&Reference(rules), case).as_ref() != Ok(right)
}

/// The case of a seed as text.
pub fn describe(seed: u64) -> String {
    show(&cases::case(&mut Rng::new(seed)))
}

/// Library and reference agree on a case and keep what 02 (f) says of moves, or the difference, shrunk.
fn agree(seed: u64, case: &Case) -> Result<Outcome, Difference> {
    let reference = Reference(Rules::default());
    let agreed = |case: &Case| {
        let seen = compare(library(seed), &reference, case)?;
        move_claims::hold(&seen).map(|()| seen)
    };
    agreed(case).map_err(|_| {
        let case = shrink(case, |case| agreed(case).is_err());
        let says = agreed(&case).err().unwrap_or_default();
        Difference::new(seed, &case, says)
    })
}

/// Limits near the number of steps, logs near the number of lines, and a pair near the last instant.
fn near(
    seed: u64,
    made: &Made,
    outcome: &Outcome,
    rng: &mut Rng,
    coverage: &mut Coverage,
) -> Result<(), Difference> {
    if outcome.refusal() != 0 || outcome.steps() > MOST_STEPS_AGAIN || rng.chance(1, 2) {
        return Ok(());
    }
    let mut close = made.clone();
    if rng.chance(2, 3) {
        close.case.limit = (outcome.steps() + 1).saturating_sub(rng.below(3) as u32);
    }
    if rng.chance(2, 3) {
        close.case.log = (4 * outcome.lines() as usize + 4).saturating_sub(rng.below(9));
    }
    if rng.chance(1, 2) {
        let instant = (outcome.instants() + 1).saturating_sub(rng.below(3) as u32);
        add_pair(&mut close.case, instant.max(1), rng);
    }
    let outcome = agree(seed, &close.case)?;
    coverage.extra(coverage::NEAR_ENDING);
    coverage.record_again(&close, &outcome);
    record_emissions(&close.case, &outcome, rng, coverage);
    record_list(seed, &close.case, &outcome, coverage)
        .map_err(|says| Difference::new(seed, &close.case, says))
}

/// Lists some session signal, if there is one, in an instant.
fn add_pair(case: &mut Case, instant: u32, rng: &mut Rng) {
    let file = File::read(&case.script).unwrap_or_default();
    if let Some(name) = rng.pick(&session_signals(&file)) {
        let mut pairs = pairs(&case.list);
        pairs.push([instant, name]);
        case.list = in_order(pairs);
    }
}

#[cfg(test)]
mod tests {
    use super::*;

    #[test]
    fn a_well_formed_case_is_refused_by_11_alone() {
        for seed in 0..3000 {
            let made = cases::made(&mut Rng::new(seed));
            let number = outcome(&Raw, &made.case).unwrap().refusal();
            assert!(
                !made.well_formed || number == 0 || number == 11,
                "seed {seed}: {number}"
            );
        }
    }

    #[test]
    fn most_scripts_for_demand_three_are_accepted() {
        let accepted = |seed: &u64| {
            let case = cases::accepted_leaning(&mut Rng::new(*seed));
            outcome(&Raw, &case).unwrap().accepted()
        };
        assert!((0..1000).filter(accepted).count() > 700);
    }
}
