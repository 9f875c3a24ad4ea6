//! Configurations ⟨Γ, S, E, P⟩ (the report, section 2.2) and the step relation.

use std::collections::BTreeSet;
use std::rc::Rc;

use crate::book::Level;
use crate::fault::{Fault, Rules};
use crate::file::File;
use crate::inputs::Inputs;
use crate::instant::instant_change;
use crate::moves::moves;
use crate::suspension::suspended;
use crate::tree::{Declaration, Expression, Name, Process};
use crate::value::{holds, negated};

/// What Γ says of a name: its level, and the name of the file it stands for.
#[derive(Clone, Copy, Debug)]
pub struct Typing {
    pub level: Level,
    pub origin: Name,
}

impl Typing {
    /// The typing of a fresh name that stands for the declared one.
    pub fn declared(declaration: Declaration) -> Typing {
        Typing {
            level: declaration.level,
            origin: declaration.name,
        }
    }
}

/// E: 'the set of signals which are considered to be present'.
pub type SignalEnvironment = BTreeSet<Name>;

/// Names are numbers. Those below the count of the file's names are the file's;
/// each fresh name takes the next number. Owned names of the file are bound in
/// P and have no entry in Γ.
pub struct Configuration {
    pub types: Vec<Option<Typing>>,
    pub store: Vec<i32>,
    pub signals: SignalEnvironment,
    pub process: Rc<Process>,
    /// The instant changes so far: the number of the instant.
    pub instant: u32,
}

/// How a step changes Γ, S and E.
#[derive(Clone, Debug)]
pub enum Effect {
    Nothing,
    /// {x ↦ S(e)} S
    Assigns(Name, i32),
    /// {x' : δ var} Γ and {x' ↦ S(e)} S
    DeclaresRegister(Name, Declaration, i32),
    /// {a} ∪ E
    Emits(Name),
    /// {a' : δ sig} Γ
    DeclaresSignal(Name, Declaration),
    /// I for E: the step is an instant change.
    ChangesInstant(SignalEnvironment),
}

/// 'A step is a move or an instant change' (01). The rule that makes a step says which.
#[derive(Clone, Copy, Debug, PartialEq, Eq)]
pub enum Kind {
    /// (PAR-OP3), the one move that leaves every node in place.
    Trade,
    /// A move by any other rule.
    Move,
    Change,
}

/// A step C ↦ C': what it does to Γ, S and E, and the process that it leaves.
pub struct Step {
    pub kind: Kind,
    pub effect: Effect,
    pub process: Rc<Process>,
}

/// The step of a configuration; none if it is terminated, that is if its process
/// is nil (Propositions 2.4 and 2.5). The i-th instant change enters instant i.
pub fn step(rules: Rules, configuration: &Configuration, inputs: &Inputs) -> Option<Step> {
    let process = &configuration.process;
    if suspended(rules, &configuration.signals, process) {
        let i = inputs.on_entering(rules, configuration.instant + 1);
        return Some(instant_change(rules, configuration, i));
    }
    moves(rules, configuration, process)
}

impl Configuration {
    /// The session names with their values; no fresh name yet.
    pub fn initial(file: &File, values: &[i32]) -> Configuration {
        let value = |x: Name| values.get(x).copied().unwrap_or(0);
        let names = || file.names.iter().enumerate();
        let types = names().map(|(origin, name)| {
            let level = name.level as Level;
            name.owner().is_none().then_some(Typing { level, origin })
        });
        let present = names().filter(|&(a, name)| name.is_signal() && value(a) != 0);
        Configuration {
            types: types.collect(),
            store: names().map(|(x, _)| value(x)).collect(),
            signals: present.map(|(a, _)| a).collect(),
            process: Process::of(file, file.script()),
            instant: 0,
        }
    }

    /// newv and news: a name that is not in dom(Γ).
    pub fn fresh_name(&self) -> Name {
        self.types.len()
    }

    /// What Γ says of a name.
    pub fn typing(&self, name: Name) -> Option<Typing> {
        self.types.get(name).copied().flatten()
    }

    /// The name of the file that a name stands for.
    pub fn origin(&self, name: Name) -> Name {
        self.typing(name).map_or(name, |typing| typing.origin)
    }

    /// The newest name made for this name of the file, if any was.
    pub fn newest_made_for(&self, origin: Name) -> Option<Name> {
        let made_for = |typing: &Option<Typing>| typing.is_some_and(|t| t.origin == origin);
        self.types.iter().rposition(made_for)
    }

    /// S(e). A name without an entry, which only a planted fault lets through,
    /// has the value 0.
    pub fn evaluate(&self, rules: Rules, expression: &Expression) -> i32 {
        match expression {
            Expression::Constant(value) => *value,
            Expression::Register(x) => self.store.get(*x).copied().unwrap_or(0),
            Expression::Operation(operation, a, b) => {
                let (a, b) = (self.evaluate(rules, a), self.evaluate(rules, b));
                operation.apply(rules, a, b)
            }
            Expression::Not(a) => negated(rules, self.evaluate(rules, a)),
        }
    }

    /// S(e) = true
    pub fn holds(&self, rules: Rules, condition: &Expression) -> bool {
        holds(rules, self.evaluate(rules, condition))
    }

    /// Goes on to the configuration that the step leads to.
    pub fn take(&mut self, rules: Rules, step: Step) {
        self.process = step.process;
        match step.effect {
            Effect::Nothing => {}
            Effect::Assigns(x, value) => self.set(x, value),
            Effect::DeclaresRegister(x, declaration, value) => {
                self.declare(x, declaration);
                self.set(x, value);
            }
            Effect::Emits(a) => {
                self.signals.insert(a);
            }
            Effect::DeclaresSignal(a, declaration) => self.declare(a, declaration),
            Effect::ChangesInstant(i) => self.enter(rules, i),
        }
    }

    /// The next instant: every signal is absent but those of I.
    fn enter(&mut self, rules: Rules, mut i: SignalEnvironment) {
        self.instant += 1;
        if rules.has(Fault::ListedRegisterIsOne) {
            i.iter().for_each(|&x| self.set(x, 1));
        }
        if rules.has(Fault::InstantKeepsSignals) {
            i.append(&mut self.signals);
        }
        self.signals = i;
    }

    fn declare(&mut self, name: Name, declaration: Declaration) {
        if name == self.fresh_name() {
            self.types.push(None);
            self.store.push(0);
        }
        self.types[name] = Some(Typing::declared(declaration));
    }

    fn set(&mut self, x: Name, value: i32) {
        self.store[x] = value;
    }
}
