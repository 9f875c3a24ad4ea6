//! Figure 1: the suspension predicate ⟨E, P⟩‡.

use crate::configuration::SignalEnvironment;
use crate::fault::{Fault, Rules};
use crate::tree::Process;

pub fn suspended(rules: Rules, e: &SignalEnvironment, process: &Process) -> bool {
    match process {
        Process::When(a, _) if !e.contains(a) && rules.has(Fault::AbsentWhenMoves) => false,
        // (WHEN-SUS1) and (WHEN-SUS2)
        Process::When(a, p) => !e.contains(a) || suspended(rules, e, p),
        // (WATCH-SUS)
        Process::Watching(p, _) => suspended(rules, e, p),
        // (SEQ-SUS)
        Process::Sequence(p, _) => suspended(rules, e, p),
        // (PAR-SUS)
        Process::Parallel(p, q) => suspended(rules, e, p) && !takes_over(rules, e, q),
        _ => false,
    }
}

/// ¬⟨E, Q⟩‡ of (PAR-OP3): whether the right part of a parallel gets the control
/// when the left part is suspended.
pub fn takes_over(rules: Rules, e: &SignalEnvironment, q: &Process) -> bool {
    if rules.has(Fault::TradesWithSuspended) {
        return true;
    }
    if rules.has(Fault::NoTradeWithNil) && q.is_nil() {
        return false;
    }
    !suspended(rules, e, q)
}
