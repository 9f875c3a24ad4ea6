//! How near a run can come to the figure of 02 (f): the most moves that a script without
//! a while makes, whatever signals each of its instants begins with.

use std::collections::{BTreeMap, HashMap};
use std::rc::Rc;

use crate::configuration::{Configuration, SignalEnvironment};
use crate::fault::Rules;
use crate::instant::instant_change;
use crate::moves::moves;
use crate::small_scripts::{up_to, Kinds, SignalFile};
use crate::suspension::suspended;
use crate::tree::{Name, Process};

/// A script that makes the most moves of all with as many nodes, and how it does.
#[derive(Clone, Debug)]
pub struct Nearest {
    /// k: nodes other than nil.
    pub nodes: u32,
    /// p: parallel nodes.
    pub parallel: u32,
    pub moves: u32,
    /// The script file; its names are signals of level 0.
    pub script: Vec<u8>,
    pub values: Vec<i32>,
    pub list: Vec<u32>,
}

/// The nearest scripts of up to so many nodes other than nil, by k, then by p.
pub fn nearest(kinds: Kinds, nodes: usize) -> Vec<Nearest> {
    let mut search = Search::default();
    let mut all = vec![];
    for (k, row) in up_to(kinds, nodes).iter().enumerate() {
        for (p, scripts) in row.iter().enumerate() {
            let most = scripts.iter().max_by_key(|script| search.most(script));
            all.extend(most.map(|script| search.shown(script, k, p)));
        }
    }
    all
}

/// The most moves of each process from the beginning of an instant on, as far as known.
/// Processes whose signals are only named otherwise are one.
#[derive(Default)]
struct Search {
    most: HashMap<Rc<Process>, u32>,
}

impl Search {
    /// The most moves of a process from the beginning of an instant on.
    fn most(&mut self, process: &Rc<Process>) -> u32 {
        let process = renamed(process);
        if let Some(&most) = self.most.get(&process) {
            return most;
        }
        let sets = every_set(&process).into_iter();
        let most = sets.map(|signals| self.most_from(&process, signals));
        let most = most.max().unwrap_or(0);
        self.most.insert(process, most);
        most
    }

    /// The most moves if the instant begins with these signals. A set by which all stays
    /// as it is only puts off the choice.
    fn most_from(&mut self, process: &Rc<Process>, signals: SignalEnvironment) -> u32 {
        let (moves, left) = instant(process, signals);
        match moves == 0 && left == *process {
            true => 0,
            false => moves + self.most(&left),
        }
    }

    /// A script as a file, with the start and the list by which it makes the most moves.
    fn shown(&mut self, script: &Rc<Process>, k: usize, p: usize) -> Nearest {
        let instants = self.instants(script);
        let file = SignalFile::of(script);
        let begins =
            |instant: usize, a: Name| instants.get(instant).is_some_and(|i| i.contains(&a));
        let names = 0..file.signals;
        let pairs = (1..instants.len()).flat_map(|i| names.clone().map(move |a| (i, a)));
        let listed = pairs.filter(|&(i, a)| begins(i, a));
        Nearest {
            nodes: k as u32,
            parallel: p as u32,
            moves: self.most(script),
            script: file.script,
            values: names.clone().map(|a| i32::from(begins(0, a))).collect(),
            list: listed.flat_map(|(i, a)| [i as u32, a as u32]).collect(),
        }
    }

    /// Signals with which the instants may begin so that the most moves are made.
    fn instants(&mut self, process: &Rc<Process>) -> Vec<SignalEnvironment> {
        let mut instants = vec![];
        let mut process = Rc::clone(process);
        let mut open = self.most(&process);
        while open > 0 {
            let best =
                |signals: &SignalEnvironment| self.most_from(&process, signals.clone()) == open;
            let Some(signals) = every_set(&process).into_iter().find(best) else {
                break;
            };
            process = instant(&process, signals.clone()).1;
            open = self.most(&process);
            instants.push(signals);
        }
        instants
    }
}

/// An instant that begins with these signals, to its change or to the end of the run: how
/// many moves it has, and what is left.
fn instant(process: &Rc<Process>, signals: SignalEnvironment) -> (u32, Rc<Process>) {
    let rules = Rules::default();
    let mut c = Configuration {
        types: vec![],
        store: vec![],
        signals,
        process: Rc::clone(process),
        instant: 0,
    };
    let mut made = 0;
    while let Some(step) = moves(rules, &c, &c.process) {
        made += 1;
        c.take(rules, step);
    }
    let left = match suspended(rules, &c.signals, &c.process) {
        true => instant_change(rules, &c, SignalEnvironment::new()).process,
        false => c.process,
    };
    (made, left)
}

/// Every set of the signals that a process names.
fn every_set(process: &Process) -> Vec<SignalEnvironment> {
    let mut sets = vec![SignalEnvironment::new()];
    for a in process.signals().into_iter().collect::<SignalEnvironment>() {
        let with = |set: &SignalEnvironment| set.iter().copied().chain([a]).collect();
        let more: Vec<_> = sets.iter().map(with).collect();
        sets.extend(more);
    }
    sets
}

/// The process with its signals numbered as they come.
fn renamed(process: &Process) -> Rc<Process> {
    let mut numbers = BTreeMap::new();
    for a in process.signals() {
        let next = numbers.len();
        numbers.entry(a).or_insert(next);
    }
    process.with_signals(&|a| numbers[&a])
}
