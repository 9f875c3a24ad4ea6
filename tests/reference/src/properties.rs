//! Tests of what the report proves of its rules, at each step of each example.

use crate::check::{accepted, Accepted};
use crate::configuration::{step, Configuration, Step};
use crate::examples::all;
use crate::inputs::Inputs;
use crate::moves::moves;
use crate::suspension::suspended;
use crate::typing::types_of;
use crate::Rules;

const STEPS: usize = 60;

/// Walks through the runs of the accepted examples: the number of steps so far,
/// the configuration and its step.
fn for_each_step(mut test: impl FnMut(&Accepted, usize, &Configuration, Option<&Step>)) {
    let rules = Rules::default();
    for example in all() {
        let Ok(accepted) = accepted(rules, &example.book, &example.script) else {
            continue;
        };
        for run in &example.runs {
            let mut configuration = Configuration::initial(&accepted.file, &run.values);
            let inputs = Inputs::new(rules, &accepted, run.reader, &run.list);
            for taken in 0..STEPS {
                let next = step(rules, &configuration, &inputs);
                test(&accepted, taken, &configuration, next.as_ref());
                let Some(next) = next else { break };
                configuration.take(rules, next);
            }
        }
    }
}

/// Propositions 2.4 and 2.5: a process is nil, or suspended, or moves, and only
/// one of these.
#[test]
fn a_process_is_nil_or_suspended_or_moves() {
    for_each_step(|_, _, configuration, next| {
        let process = &configuration.process;
        let nil = process.is_nil();
        let waits = suspended(Rules::default(), &configuration.signals, process);
        let active = moves(Rules::default(), configuration, process).is_some();
        assert_eq!(
            [nil, waits, active].iter().filter(|&&holds| holds).count(),
            1
        );
        assert_eq!(next.is_none(), nil);
    });
}

/// Theorem 3.3: a step keeps the types of a process.
#[test]
fn subject_reduction() {
    let mut before = Vec::new();
    for_each_step(|accepted, taken, configuration, _| {
        let types = types_of(&accepted.book, configuration);
        assert!(!types.is_empty());
        assert!(taken == 0 || before.iter().all(|pair| types.contains(pair)));
        before = types;
    });
}
