//! Figure 4: instant changes C ↪ C'.

use std::rc::Rc;

use crate::configuration::{Configuration, Effect, Kind, SignalEnvironment, Step};
use crate::fault::{Fault, Rules};
use crate::tree::Process;

/// (INSTANT-OP), for a suspended configuration: ⟨Γ, S, I, ⌊P⌋E⟩. The report has ∅
/// for I; here I is what the list names for the instant that is entered.
pub fn instant_change(rules: Rules, c: &Configuration, i: SignalEnvironment) -> Step {
    let process = match rules.has(Fault::ListedBeforeChange) {
        true => residual(rules, &(&c.signals | &i), &c.process),
        false => residual(rules, &c.signals, &c.process),
    };
    Step {
        kind: Kind::Change,
        effect: Effect::ChangesInstant(i),
        process,
    }
}

/// ⌊P⌋E, defined for suspended processes only; planted faults ask it of others,
/// which stay as they are.
fn residual(rules: Rules, e: &SignalEnvironment, process: &Rc<Process>) -> Rc<Process> {
    let residual = |p: &Rc<Process>| residual(rules, e, p);
    let kills = |present: bool| match rules.fault {
        Some(Fault::WatchingKillsIfAbsent) => true,
        Some(Fault::WatchingNeverKills) => false,
        _ => present,
    };
    Rc::new(match &**process {
        Process::Watching(_, a) if kills(e.contains(a)) => Process::Nil,
        Process::Watching(p, a) => Process::Watching(residual(p), *a),
        Process::When(a, p) if e.contains(a) || rules.has(Fault::AbsentWhenChangesBody) => {
            Process::When(*a, residual(p))
        }
        Process::Sequence(p, q) if rules.has(Fault::SequenceChangesBoth) => {
            Process::Sequence(residual(p), residual(q))
        }
        Process::Sequence(p, q) => Process::Sequence(residual(p), Rc::clone(q)),
        Process::Parallel(p, q) if rules.has(Fault::ParallelChangesLeftOnly) => {
            Process::Parallel(residual(p), Rc::clone(q))
        }
        Process::Parallel(p, q) => Process::Parallel(residual(p), residual(q)),
        _ => return Rc::clone(process),
    })
}
