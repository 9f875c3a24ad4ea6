//! What a script would need (02 (e)): 'for each level the set of other levels to
//! which data must be let flow'. The script file stands alone here: no book.

use std::collections::BTreeSet;

use crate::check::well_formed_file;
use crate::fault::{Fault, Rules};
use crate::file::File;
use crate::order::{Level, MOST_LEVELS};
use crate::refusal::Refusal;
use crate::tree::{Declaration, Expression, Name, Process};

/// For each level the set of levels to which data must be let flow from it: bit j
/// of word i says so of level i and level j.
pub type Flows = [u32; MOST_LEVELS];

type Levels = BTreeSet<Level>;

/// The sets of 'a file that passes 4 to 10 (no book here: 6 takes levels to 15)',
/// or its refusal.
pub fn flows(rules: Rules, script: &[u8]) -> Result<Flows, Refusal> {
    let levels = match rules.fault {
        Some(Fault::LevelPastLastPasses) => MOST_LEVELS + 1,
        Some(Fault::LastLevelRefused) => MOST_LEVELS - 1,
        _ => MOST_LEVELS,
    };
    well_formed_file(rules, levels, script).map(|file| sets(rules, &file))
}

/// The sets beside a refusal: 'A refusal's other returned numbers are 0' (01).
/// A planted fault keeps those of a file whose nodes make a tree.
pub fn sets_of_refused(rules: Rules, refusal: Refusal, script: &[u8]) -> Flows {
    let kept = refusal.number == 10 && rules.has(Fault::FlowsKeptByRefusal);
    let file = kept.then(|| File::read(rules, script).ok()).flatten();
    file.map_or([0; MOST_LEVELS], |file| sets(rules, &file))
}

/// The listed pairs as sets.
fn sets(rules: Rules, file: &File) -> Flows {
    let mut script = Script {
        rules,
        file,
        pairs: BTreeSet::new(),
    };
    script.acts(&Process::of(file, file.script()));
    let mut pairs = script.pairs;
    if rules.has(Fault::FlowsClosed) {
        close(&mut pairs);
    }
    let mut sets = [0; MOST_LEVELS];
    for (from, to) in pairs {
        put(rules, &mut sets, from, to);
    }
    sets
}

/// Puts a level into the set of another. Data need not be let flow from a level to
/// itself: the sets are of 'other levels'. Only a planted fault has a level that
/// has no set.
fn put(rules: Rules, sets: &mut Flows, from: Level, to: Level) {
    let listed = match rules.fault {
        Some(Fault::OwnLevelListed) => true,
        Some(Fault::LevelsAboveSevenLost) => from != to && to <= 7,
        Some(Fault::LastLevelUnlisted) => from != to && from + 1 != MOST_LEVELS,
        _ => from != to,
    };
    let (row, column) = match rules.has(Fault::FlowsTransposed) {
        true => (to, from),
        false => (from, to),
    };
    if let Some(set) = sets.get_mut(row).filter(|_| listed) {
        *set |= 1u32.checked_shl(column as u32).unwrap_or(0);
    }
}

/// Adds pairs that follow from others, which a book has anyhow.
fn close(pairs: &mut BTreeSet<(Level, Level)>) {
    for between in 0..=MOST_LEVELS {
        let (mut before, mut after) = (Levels::new(), Levels::new());
        for &(from, to) in pairs.iter() {
            before.extend((to == between).then_some(from));
            after.extend((from == between).then_some(to));
        }
        pairs.extend(every_pair(&before, &after));
    }
}

/// Each level of the one set with each level of the other.
fn every_pair(from: &Levels, to: &Levels) -> BTreeSet<(Level, Level)> {
    let with = |&i: &Level| to.iter().map(move |&j| (i, j));
    from.iter().flat_map(with).collect()
}

/// The levels that a node, with all that is in it, tests and writes.
#[derive(Default)]
struct Acts {
    tested: Levels,
    written: Levels,
}

impl Acts {
    fn and(mut self, other: Acts) -> Acts {
        self.tested.extend(other.tested);
        self.written.extend(other.written);
        self
    }

    fn and_tests(mut self, tested: Levels) -> Acts {
        self.tested.extend(tested);
        self
    }

    fn and_writes(mut self, level: Level) -> Acts {
        self.written.insert(level);
        self
    }
}

/// A script, and the pairs that its nodes have listed.
struct Script<'a> {
    rules: Rules,
    file: &'a File,
    pairs: BTreeSet<(Level, Level)>,
}

impl Script<'_> {
    fn has(&self, fault: Fault) -> bool {
        self.rules.has(fault)
    }

    fn level(&self, x: Name) -> Level {
        self.file.names[x].level as Level
    }

    /// 'Each tested level to each written level, wherever a node's need joins them.'
    fn join(&mut self, from: &Levels, to: &Levels) {
        self.pairs.extend(every_pair(from, to));
    }

    /// Lists the pairs of a node and of all that is in it; gives what they test and
    /// write. The needs are those of 01, 'Write level and test level'.
    fn acts(&mut self, process: &Process) -> Acts {
        match process {
            Process::Nil => Acts::default(),
            Process::Assign(x, e) => self.assign(*x, e),
            Process::Let(d, e, p) => self.let_in(d, e, p),
            Process::If(e, p, q) => self.if_else(e, p, q),
            Process::While(e, p) => self.while_do(e, p),
            Process::Sequence(p, q) => self.sequence(p, q),
            Process::Emit(a) => self.writes(*a, Fault::EmissionIsNoWrite),
            Process::Local(d, p) => self.local(d, p),
            Process::Watching(p, a) => self.guarded(*a, p, Fault::WatchingFlowUnlisted),
            Process::When(a, p) => self.guarded(*a, p, Fault::WhenFlowUnlisted),
            Process::Parallel(p, q) => self.parallel(p, q),
        }
    }

    /// The levels of the registers of an expression.
    fn registers(&self, e: &Expression) -> Levels {
        match e {
            Expression::Constant(_) => Levels::new(),
            Expression::Register(x) => Levels::from([self.level(*x)]),
            Expression::Operation(_, a, _) if self.has(Fault::RightOperandUnlisted) => {
                self.registers(a)
            }
            Expression::Operation(_, a, b) => &self.registers(a) | &self.registers(b),
            Expression::Not(a) => self.registers(a),
        }
    }

    /// What assigns or emits to a name writes its level, also that of an owned name.
    fn writes(&self, x: Name, no_write: Fault) -> Acts {
        let owned = self.file.names[x].owner().is_some();
        if self.has(no_write) || owned && self.has(Fault::OwnedIsNoWrite) {
            return Acts::default();
        }
        Acts::default().and_writes(self.level(x))
    }

    /// 'Each register level of an assigned or let expression to that name.'
    fn assign(&mut self, x: Name, e: &Expression) -> Acts {
        let registers = self.registers(e);
        if !self.has(Fault::AssignedFlowUnlisted) {
            self.join(&registers, &Levels::from([self.level(x)]));
        }
        let acts = self.writes(x, Fault::AssignmentIsNoWrite);
        match self.has(Fault::AssignmentIsTest) {
            true => acts.and_tests(registers),
            false => acts,
        }
    }

    /// 'let, local: the body's W and T': the declaration is no write of its name.
    fn let_in(&mut self, d: &Declaration, e: &Expression, p: &Process) -> Acts {
        let registers = self.registers(e);
        if !self.has(Fault::LetFlowUnlisted) {
            self.join(&registers, &Levels::from([d.level]));
        }
        let body = self.acts(p);
        match self.rules.fault {
            Some(Fault::LetIsTest) => body.and_tests(registers),
            Some(Fault::LetIsWrite) => body.and_writes(d.level),
            _ => body,
        }
    }

    fn local(&mut self, d: &Declaration, p: &Process) -> Acts {
        let body = self.acts(p);
        match self.has(Fault::LocalIsWrite) {
            true => body.and_writes(d.level),
            false => body,
        }
    }

    /// 'if: W meet, T join of both and D; needs D ≤ W.'
    fn if_else(&mut self, e: &Expression, p: &Process, q: &Process) -> Acts {
        let tested = self.registers(e);
        let (mut first, mut second) = (self.acts(p), self.acts(q));
        if !self.has(Fault::FirstBranchUnlisted) {
            self.join(&tested, &first.written);
        }
        if !self.has(Fault::SecondBranchUnlisted) {
            self.join(&tested, &second.written);
        }
        if self.has(Fault::BranchTestsForgotten) {
            first.tested.clear();
            second.tested.clear();
        }
        self.tests(first.and(second), tested, Fault::ConditionForgotten)
    }

    /// What is in a node, and what the node itself tests.
    fn tests(&self, acts: Acts, tested: Levels, forgotten: Fault) -> Acts {
        match self.has(forgotten) {
            true => acts,
            false => acts.and_tests(tested),
        }
    }

    /// 'When, watching: body's W, T joined with D; needs D ≤ W.'
    fn guarded(&mut self, a: Name, p: &Process, unlisted: Fault) -> Acts {
        let tested = Levels::from([self.level(a)]);
        let body = self.acts(p);
        if !self.has(unlisted) {
            self.join(&tested, &body.written);
        }
        self.tests(body, tested, Fault::GuardForgotten)
    }

    /// 'while: body's W, T joined with D; needs the joined T ≤ W.'
    fn while_do(&mut self, e: &Expression, p: &Process) -> Acts {
        let tested = self.registers(e);
        let body = self.acts(p);
        if !self.has(Fault::WhileConditionUnlisted) {
            self.join(&tested, &body.written);
        }
        if !self.has(Fault::WhileBodyUnlisted) {
            self.join(&body.tested, &body.written);
        }
        self.tests(body, tested, Fault::ConditionForgotten)
    }

    /// 'sequence: meet, join; needs T of a ≤ W of b.'
    fn sequence(&mut self, p: &Process, q: &Process) -> Acts {
        let (a, b) = (self.acts(p), self.acts(q));
        let reversed = self.has(Fault::SequenceListedReversed);
        if !reversed {
            self.join(&a.tested, &b.written);
        }
        if reversed || self.has(Fault::SequenceListedBothWays) {
            self.join(&b.tested, &a.written);
        }
        a.and(b)
    }

    /// 'Parallel: also T of b ≤ W of a.'
    fn parallel(&mut self, p: &Process, q: &Process) -> Acts {
        let (a, b) = (self.acts(p), self.acts(q));
        if !self.has(Fault::ParallelListedBack) {
            self.join(&a.tested, &b.written);
        }
        if !self.has(Fault::ParallelListedForth) {
            self.join(&b.tested, &a.written);
        }
        a.and(b)
    }
}
