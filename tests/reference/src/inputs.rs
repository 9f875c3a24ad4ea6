//! The list of a run (request (a) of paper 02): refusal 15, and I, the signals
//! that the instrument makes present in the instant that is entered.

use std::collections::BTreeMap;

use crate::book::Level;
use crate::check::Accepted;
use crate::configuration::SignalEnvironment;
use crate::fault::{Fault, Rules};
use crate::file::{File, NameEntry};
use crate::tree::Name;

/// A pair of the list. Half a pair at the end lacks its name.
#[derive(Clone, Copy)]
struct Pair {
    instant: u32,
    name: Option<Name>,
}

/// 'A list of pairs of 32-bit words, instant (from 1) and session signal.'
fn pairs(list: &[u32]) -> Vec<Pair> {
    let pair = |words: &[u32]| Pair {
        instant: words[0],
        name: words.get(1).map(|&name| name as Name),
    };
    list.chunks(2).map(pair).collect()
}

/// Row 15: 'instant 0 or falling, not a session signal, or half a pair at the
/// end; place is the first such pair'.
pub fn refusal_15(rules: Rules, file: &File, list: &[u32]) -> Option<usize> {
    let pairs = pairs(list);
    let is_wrong = |i: &usize| {
        let before = i.checked_sub(1).map(|before| pairs[before].instant);
        !instant_is_right(rules, before, pairs[*i].instant)
            || !name_is_right(rules, file, pairs[*i].name)
    };
    let mut places = 0..pairs.len();
    match rules.fault {
        Some(Fault::ListPlaceLast) => places.rfind(is_wrong),
        Some(Fault::ListPlaceFromOne) => places.find(is_wrong).map(|i| i + 1),
        Some(Fault::ListPlaceInWords) => places.find(is_wrong).map(|i| 2 * i),
        _ => places.find(is_wrong),
    }
}

/// 'Instant (from 1) ..., with instants never falling.'
fn instant_is_right(rules: Rules, before: Option<u32>, instant: u32) -> bool {
    let zero = instant == 0 && !rules.has(Fault::ListFromInstantZero);
    let falls = before.is_some_and(|before| match rules.fault {
        Some(Fault::ListMayFall) => false,
        Some(Fault::ListMustRise) => instant <= before,
        _ => instant < before,
    });
    !zero && !falls
}

/// 'Session signal': a name of the file, of kind 1, that no node declares.
fn name_is_right(rules: Rules, file: &File, name: Option<Name>) -> bool {
    let Some(name) = name else {
        return rules.has(Fault::HalfPairPasses);
    };
    let Some(entry) = file.names.get(name) else {
        return rules.has(Fault::ListedPastNames);
    };
    is_session_signal(entry)
        || (entry.is_signal() && rules.has(Fault::ListedOwnedSignal))
        || (entry.is_register() && rules.has(Fault::ListedRegisterIsOne))
}

fn is_session_signal(entry: &NameEntry) -> bool {
    entry.is_signal() && entry.owner().is_none()
}

/// The signals that a list names for each instant.
#[derive(Default)]
pub struct Inputs(BTreeMap<u32, SignalEnvironment>);

impl Inputs {
    /// The inputs are the same for every reader, unless a planted fault has it
    /// otherwise; and only a planted fault lets half a pair through.
    pub fn new(rules: Rules, accepted: &Accepted, reader: u32, list: &[u32]) -> Inputs {
        let Accepted { book, file, .. } = accepted;
        let is_sealed = |name: Name| {
            let level = file.names[name].level as Level;
            !book.at_or_below(level, reader as Level)
        };
        let mut inputs = Inputs::default();
        for Pair { instant, name } in pairs(list) {
            match name {
                Some(name) if rules.has(Fault::ListedSealedAbsent) && is_sealed(name) => {}
                Some(name) => inputs.add(rules, instant, name),
                None => {}
            }
        }
        inputs
    }

    /// 'Equal pairs may repeat.'
    fn add(&mut self, rules: Rules, instant: u32, name: Name) {
        let instant = match rules.has(Fault::ListInstantsWrap) {
            true => instant % 65_536,
            false => instant,
        };
        let named = self.0.entry(instant).or_default();
        match rules.fault {
            Some(Fault::ListTakesOnePair) if !named.is_empty() => {}
            Some(Fault::ListRepeatsCancel) if named.remove(&name) => {}
            _ => {
                named.insert(name);
            }
        }
    }

    fn named(&self, instant: u32) -> SignalEnvironment {
        self.0.get(&instant).cloned().unwrap_or_default()
    }

    /// I: 'on entering an instant its listed signals are present'. Instants that
    /// are entered count from 1.
    pub fn on_entering(&self, rules: Rules, instant: u32) -> SignalEnvironment {
        match rules.fault {
            Some(Fault::ListedLate) => self.named(instant - 1),
            Some(Fault::ListedEarly) => self.named(instant + 1),
            Some(Fault::ListedStays) => &self.named(instant) | &self.named(instant - 1),
            Some(Fault::ListTakenInTurn) => {
                let mut in_turn = self.0.values();
                in_turn
                    .nth(instant as usize - 1)
                    .cloned()
                    .unwrap_or_default()
            }
            _ => self.named(instant),
        }
    }
}
