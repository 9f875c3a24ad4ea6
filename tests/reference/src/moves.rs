//! Figures 2 and 3: the moves C → C', rule by rule.

use std::rc::Rc;

use crate::configuration::{Configuration, Effect, Kind, Step};
use crate::fault::{Fault, Rules};
use crate::suspension::takes_over;
use crate::tree::{Declaration, Expression, Name, Process};

/// The move of `process` under the configuration's Γ, S and E; none if it is nil
/// or suspended.
pub fn moves(rules: Rules, c: &Configuration, process: &Process) -> Option<Step> {
    match process {
        Process::Nil => None,
        Process::Assign(x, e) => Some(assign(rules, c, *x, e)),
        Process::Let(d, e, p) => Some(let_in(rules, c, *d, e, p)),
        Process::If(e, p, q) => Some(cond(rules, c, e, p, q)),
        Process::While(e, p) => Some(while_do(rules, c, e, p)),
        Process::Sequence(p, q) => seq(rules, c, p, q),
        Process::Emit(a) => Some(emit(*a)),
        Process::Local(d, p) => Some(local(rules, c, *d, p)),
        Process::Watching(p, a) => watch(rules, c, p, *a),
        Process::When(a, p) => when(rules, c, *a, p),
        Process::Parallel(p, q) => par(rules, c, p, q),
    }
}

/// A move that changes neither Γ nor S nor E.
fn silent(process: &Rc<Process>) -> Step {
    Step {
        kind: Kind::Move,
        effect: Effect::Nothing,
        process: Rc::clone(process),
    }
}

fn to_nil(effect: Effect) -> Step {
    Step {
        kind: Kind::Move,
        effect,
        process: Rc::new(Process::Nil),
    }
}

/// The move of a part, put back into its context.
fn inside(step: Step, context: impl FnOnce(Rc<Process>) -> Process) -> Step {
    Step {
        kind: step.kind,
        effect: step.effect,
        process: Rc::new(context(step.process)),
    }
}

/// (ASSIGN-OP)
fn assign(rules: Rules, c: &Configuration, x: Name, e: &Expression) -> Step {
    to_nil(Effect::Assigns(x, c.evaluate(rules, e)))
}

/// (SEQ-OP1) and (SEQ-OP2)
fn seq(rules: Rules, c: &Configuration, p: &Rc<Process>, q: &Rc<Process>) -> Option<Step> {
    if p.is_nil() {
        return Some(silent(q));
    }
    let step = moves(rules, c, p)?;
    if step.process.is_nil() && rules.has(Fault::NilDroppedAtOnce) {
        return Some(Step {
            process: Rc::clone(q),
            ..step
        });
    }
    Some(inside(step, |p| Process::Sequence(p, Rc::clone(q))))
}

/// (LET-OP)
fn let_in(
    rules: Rules,
    c: &Configuration,
    d: Declaration,
    e: &Expression,
    p: &Rc<Process>,
) -> Step {
    let x = c.fresh_name();
    Step {
        kind: Kind::Move,
        effect: Effect::DeclaresRegister(x, d, c.evaluate(rules, e)),
        process: p.substitute(x, d.name),
    }
}

/// (COND-OP1) and (COND-OP2)
fn cond(rules: Rules, c: &Configuration, e: &Expression, p: &Rc<Process>, q: &Rc<Process>) -> Step {
    silent(if c.holds(rules, e) { p } else { q })
}

/// (WHILE-OP1) and (WHILE-OP2)
fn while_do(rules: Rules, c: &Configuration, e: &Rc<Expression>, p: &Rc<Process>) -> Step {
    if !c.holds(rules, e) {
        return to_nil(Effect::Nothing);
    }
    if rules.has(Fault::WhileRunsOnce) {
        return silent(p);
    }
    let again = Rc::new(Process::While(Rc::clone(e), Rc::clone(p)));
    silent(&Rc::new(Process::Sequence(Rc::clone(p), again)))
}

/// (EMIT-OP)
fn emit(a: Name) -> Step {
    to_nil(Effect::Emits(a))
}

/// (LOCAL-OP)
fn local(rules: Rules, c: &Configuration, d: Declaration, p: &Rc<Process>) -> Step {
    let mut a = c.fresh_name();
    if rules.has(Fault::LocalNotReset) {
        a = c.newest_made_for(d.name).unwrap_or(a);
    }
    Step {
        kind: Kind::Move,
        effect: Effect::DeclaresSignal(a, d),
        process: p.substitute(a, d.name),
    }
}

/// (WATCH-OP1) and (WATCH-OP2)
fn watch(rules: Rules, c: &Configuration, p: &Rc<Process>, a: Name) -> Option<Step> {
    let at_once = rules.has(Fault::WatchingKillsAtOnce) && c.signals.contains(&a);
    if p.is_nil() || at_once {
        return Some(to_nil(Effect::Nothing));
    }
    let step = moves(rules, c, p)?;
    Some(inside(step, |p| Process::Watching(p, a)))
}

/// (WHEN-OP1) and (WHEN-OP2)
fn when(rules: Rules, c: &Configuration, a: Name, p: &Rc<Process>) -> Option<Step> {
    if !c.signals.contains(&a) {
        let stays = || silent(&Rc::new(Process::When(a, Rc::clone(p))));
        return rules.has(Fault::AbsentWhenMoves).then(stays);
    }
    if p.is_nil() {
        return Some(to_nil(Effect::Nothing));
    }
    let step = moves(rules, c, p)?;
    if rules.has(Fault::WhenTestsOnce) {
        return Some(step);
    }
    Some(inside(step, |p| Process::When(a, p)))
}

/// (PAR-OP1), (PAR-OP2) and (PAR-OP3). A left part that is not nil and has no
/// move is suspended (Proposition 2.4).
fn par(rules: Rules, c: &Configuration, p: &Rc<Process>, q: &Rc<Process>) -> Option<Step> {
    if p.is_nil() {
        return Some(match rules.has(Fault::NilLeftPartTrades) {
            true => trade(p, q),
            false => silent(q),
        });
    }
    if q.is_nil() && rules.has(Fault::NilRightPartDropped) {
        return Some(silent(p));
    }
    if let Some(step) = moves(rules, c, p) {
        let put_back = |p| match rules.has(Fault::TradesAfterEachMove) {
            true => Process::Parallel(Rc::clone(q), p),
            false => Process::Parallel(p, Rc::clone(q)),
        };
        return Some(inside(step, put_back));
    }
    takes_over(rules, &c.signals, q).then(|| trade(p, q))
}

/// The parts of a parallel change places.
fn trade(p: &Rc<Process>, q: &Rc<Process>) -> Step {
    Step {
        kind: Kind::Trade,
        effect: Effect::Nothing,
        process: Rc::new(Process::Parallel(Rc::clone(q), Rc::clone(p))),
    }
}
