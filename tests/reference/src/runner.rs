//! Run (01, 'Calls'): the loop over the steps, endings, lines and values.

use crate::book::{Book, Level};
use crate::check::Accepted;
use crate::configuration::{step, Configuration, Effect, Kind, SignalEnvironment, Step, Typing};
use crate::emissions::Emissions;
use crate::fault::{Fault, Rules};
use crate::file::NameEntry;
use crate::inputs::Inputs;
use crate::log::{Line, Log};
use crate::tree::Name;
use crate::{Moves, RunAnswer, RunArguments};

// 'Run returns how it ended.'
const FINISHED: u32 = 0;
const SPENT: u32 = 1;
const LOG_FULL: u32 = 2;

/// A run under way: the configuration, and the steps so far.
struct Run<'a> {
    rules: Rules,
    book: &'a Book,
    reader: Level,
    limit: u32,
    inputs: Inputs,
    configuration: Configuration,
    emissions: Emissions,
    steps: u32,
    moves: Moves,
}

/// Runs an accepted script, and counts its moves. 'Values then hold the state after
/// the counted steps, owned names 0; log words after the last line are untouched.'
pub fn run(rules: Rules, accepted: &Accepted, arguments: RunArguments) -> (RunAnswer, Moves) {
    let RunArguments { reader, values, .. } = arguments;
    let mut log = Log::new(arguments.log);
    let mut run = Run {
        rules,
        book: &accepted.book,
        reader: reader as Level,
        limit: arguments.limit,
        inputs: Inputs::new(rules, accepted, reader, arguments.list),
        configuration: Configuration::initial(&accepted.file, values),
        emissions: Emissions::default(),
        steps: 0,
        moves: Moves::default(),
    };
    let ending = run.take_steps(&mut log);
    for (x, (name, value)) in accepted.file.names.iter().zip(values).enumerate() {
        *value = run.value_at_end(x, name);
    }
    let answer = RunAnswer {
        number: 0,
        place: 0,
        ending,
        steps: run.steps,
        instants: run.configuration.instant,
        lines: log.lines() as u32,
    };
    (answer, run.moves)
}

impl Run<'_> {
    /// Takes steps until the run ends; returns how it ended.
    fn take_steps(&mut self, log: &mut Log) -> u32 {
        loop {
            let next = step(self.rules, &self.configuration, &self.inputs);
            if let Some(ending) = self.ending(next.as_ref(), log) {
                return ending;
            }
            // Only nil has no step (Proposition 2.4), and nil is finished.
            let Some(next) = next else {
                return FINISHED;
            };
            self.write_line(&next.effect, log);
            self.steps += self.steps_of(&next.effect);
            self.count_move(next.kind);
            self.emissions
                .note(self.rules, &self.configuration, &next.effect);
            self.configuration.take(self.rules, next);
        }
    }

    /// One, also where an instant change makes signals present: 'in the same step
    /// as the change'; and one where an emission finds its signal present, which
    /// 'takes its step'.
    fn steps_of(&self, effect: &Effect) -> u32 {
        match (effect, self.rules.fault) {
            (Effect::ChangesInstant(i), Some(Fault::ListedTakesStep)) if !i.is_empty() => 2,
            (Effect::Emits(a), Some(Fault::RepeatTakesNoStep)) if !self.makes_line(*a) => 0,
            _ => 1,
        }
    }

    /// 'Instant changes are not moves' (02 (f)).
    fn count_move(&mut self, kind: Kind) {
        let is_move = match kind {
            Kind::Move => true,
            Kind::Trade => !self.rules.has(Fault::TradesAreNoMoves),
            Kind::Change => self.rules.has(Fault::ChangesAreMoves),
        };
        self.moves.all += u32::from(is_move);
        self.moves.trades += u32::from(kind == Kind::Trade);
    }

    /// 'Before each step: 0 finished if the script is nil; else 1 spent if the
    /// limit is reached; else 2 log full if this step needs a line and no four
    /// words are left.'
    fn ending(&self, next: Option<&Step>, log: &Log) -> Option<u32> {
        let needs_line = next.is_some_and(|next| self.needs_line(&next.effect));
        let finished = self.configuration.process.is_nil().then_some(FINISHED);
        let spent = (self.steps >= self.limit).then_some(SPENT);
        let full = (needs_line && log.is_full(self.rules)).then_some(LOG_FULL);
        match self.rules.fault {
            Some(Fault::SpentBeforeFinished) => spent.or(finished).or(full),
            Some(Fault::LogFullBeforeSpent) => finished.or(full).or(spent),
            Some(Fault::FullLogDropsLines) => finished.or(spent),
            _ => finished.or(spent).or(full),
        }
    }

    fn typing(&self, name: Name) -> Option<Typing> {
        self.configuration.typing(name)
    }

    /// Whether an emission of `a` is a line for those who see `a`.
    fn makes_line(&self, a: Name) -> bool {
        self.emissions.is_line(self.rules, &self.configuration, a)
    }

    /// Every assignment is a line, also one of the value that its register holds;
    /// only a planted fault leaves that one out.
    fn is_left_out(&self, x: Name, value: i32) -> bool {
        let held = self.configuration.store.get(x);
        held == Some(&value) && self.rules.has(Fault::EqualAssignmentIsNoLine)
    }

    /// The name and value that a step writes: 'for each assignment and emission
    /// ...; a let writes none'. Nor does an instant change: 'without a log line'.
    /// Nor does an emission that finds its signal present.
    fn written(&self, effect: &Effect) -> Option<(Typing, i32)> {
        match *effect {
            Effect::Assigns(x, value) if self.is_left_out(x, value) => None,
            Effect::Assigns(x, value) => Some((self.typing(x)?, value)),
            Effect::Emits(a) if !self.makes_line(a) => None,
            Effect::Emits(a) if self.rules.has(Fault::EmissionLogsName) => {
                let typing = self.typing(a)?;
                Some((typing, typing.origin as i32))
            }
            Effect::Emits(a) => Some((self.typing(a)?, 1)),
            Effect::DeclaresRegister(_, d, value) if self.rules.has(Fault::LetWritesLine) => {
                Some((Typing::declared(d), value))
            }
            _ => None,
        }
    }

    /// '... to a name at or below the reader's level'.
    fn is_visible(&self, typing: Typing) -> bool {
        match self.rules.fault {
            Some(Fault::EveryLevelLogged) => true,
            Some(Fault::ReaderLevelOnly) => typing.level == self.reader,
            _ => self.book.at_or_below(typing.level, self.reader),
        }
    }

    fn sees(&self, name: Name) -> bool {
        let typing = self.typing(name);
        typing.is_some_and(|typing| self.is_visible(typing))
    }

    /// Whether a step needs four words of the log. An emission that finds its
    /// signal present 'needs no log words'.
    fn needs_line(&self, effect: &Effect) -> bool {
        let written = self.written(effect);
        match (effect, self.rules.fault) {
            (Effect::ChangesInstant(i), Some(Fault::ListedNeedsLine)) => {
                self.visible(i).next().is_some()
            }
            (Effect::Emits(a), Some(Fault::RepeatNeedsRoom)) => self.sees(*a),
            (Effect::Emits(_), Some(Fault::EmissionNeedsNoRoom)) => false,
            (_, Some(Fault::SealedWritesUseLog)) => written.is_some(),
            _ => written.is_some_and(|(typing, _)| self.is_visible(typing)),
        }
    }

    fn write_line(&self, effect: &Effect, log: &mut Log) {
        let instant = self.configuration.instant;
        match (self.written(effect), effect) {
            (Some((typing, value)), _) if self.is_visible(typing) => {
                log.write(self.line(instant, typing.origin, value));
            }
            (Some(_), _) => log.skip(self.rules.has(Fault::SealedWritesUseLog)),
            (None, Effect::ChangesInstant(i)) => self.write_listed(i, log),
            (None, Effect::Emits(a)) if self.sees(*a) => {
                log.skip(self.rules.has(Fault::RepeatsUseLog));
            }
            _ => {}
        }
    }

    /// 'Step from 1, instant from 0, name, value.'
    fn line(&self, instant: u32, name: Name, value: i32) -> Line {
        let first_step = u32::from(!self.rules.has(Fault::StepsFromZero));
        let first_instant = u32::from(self.rules.has(Fault::InstantsFromOne));
        [
            self.steps + first_step,
            instant + first_instant,
            name as u32,
            value as u32,
        ]
    }

    /// The names of I that the reader sees.
    fn visible<'i>(&'i self, i: &'i SignalEnvironment) -> impl Iterator<Item = Name> + 'i {
        i.iter().copied().filter(|&a| self.sees(a))
    }

    /// Only a planted fault writes lines for listed signals.
    fn write_listed(&self, i: &SignalEnvironment, log: &mut Log) {
        if self.rules.has(Fault::ListedWritesLine) {
            let entered = self.configuration.instant + 1;
            self.visible(i)
                .for_each(|a| log.write(self.line(entered, a, 1)));
        }
    }

    /// The value of a name of the file after the counted steps.
    fn value_at_end(&self, x: Name, name: &NameEntry) -> i32 {
        let configuration = &self.configuration;
        let value = |x: Name| match name.is_register() {
            true => configuration.store[x],
            false => i32::from(configuration.signals.contains(&x)),
        };
        if name.owner().is_none() {
            return value(x);
        }
        if !self.rules.has(Fault::OwnedNamesKept) {
            return 0;
        }
        configuration.newest_made_for(x).map_or(0, value)
    }
}
