//! Which emissions are lines (02 (c)).

use crate::configuration::{Configuration, Effect, SignalEnvironment};
use crate::fault::{Fault, Rules};
use crate::tree::Name;

/// What only planted faults ask for: the rule itself asks for E alone. Names are
/// those of the file.
#[derive(Default)]
pub struct Emissions {
    /// Emitted in this instant.
    now: SignalEnvironment,
    /// Emitted in this instant or an earlier one.
    ever: SignalEnvironment,
    /// Present when the instant before ended.
    before: SignalEnvironment,
    /// The name that was assigned or emitted last.
    last: Option<Name>,
}

impl Emissions {
    /// 'Of emissions, only one that makes an absent signal present is a line now.'
    /// What made the signal present doesn't matter: an emission, the list or the
    /// start values.
    pub fn is_line(&self, rules: Rules, c: &Configuration, a: Name) -> bool {
        let absent = !c.signals.contains(&a);
        let name = c.origin(a);
        let first = !self.now.contains(&name);
        match rules.fault {
            Some(Fault::RepeatIsLine) => true,
            Some(Fault::NoEmissionIsLine) => false,
            Some(Fault::ListedSignalIsLine) => absent || (first && c.instant > 0),
            Some(Fault::StartSignalIsLine) => absent || (first && c.instant == 0),
            // An owned name of the file is not in Γ: a fresh name stands for it.
            Some(Fault::OwnedRepeatIsLine) => absent || a != name,
            Some(Fault::RepeatsInARowOnly) => absent || self.last != Some(name),
            Some(Fault::RenewalForgotten) => absent && first,
            Some(Fault::InstantForgotten) => absent && !self.before.contains(&name),
            Some(Fault::OneLineInARun) => absent && !self.ever.contains(&name),
            _ => absent,
        }
    }

    /// Takes note of a step that is to be taken, where a fault is planted.
    pub fn note(&mut self, rules: Rules, c: &Configuration, effect: &Effect) {
        match *effect {
            _ if rules.fault.is_none() => {}
            Effect::Assigns(x, _) => self.last = Some(c.origin(x)),
            Effect::Emits(a) => {
                let name = c.origin(a);
                self.now.insert(name);
                self.ever.insert(name);
                self.last = Some(name);
            }
            Effect::ChangesInstant(_) => {
                self.now.clear();
                self.before = c.signals.iter().map(|&a| c.origin(a)).collect();
            }
            _ => {}
        }
    }
}
