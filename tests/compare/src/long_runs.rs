//! A few runs to the greatest step limit, and logs that fill late: too slow to be drawn at random.

use crate::difference::compare;
use crate::engine::{Raw, Reference, Wrapper};
use cases::damage::MOST_STEPS;
use cases::file;
use cases::tree::*;
use cases::{Case, Rng};
use reference::Rules;

const REGISTER: usize = 0;
const SIGNAL: usize = 1;
const ABSENT: usize = 2;

const LINE_WORDS: usize = 4;

/// A run by its title.
struct LongRun {
    title: &'static str,
    root: Process,
    limit: u32,
    list: Vec<u32>,
    /// The log's length in words.
    log: usize,
}

fn one() -> Expression {
    Expression::Constant(1)
}

fn forever(body: Process) -> Process {
    while_do(one(), body)
}

fn count() -> Process {
    Process::Assign(REGISTER, binary(ADD, Expression::Register(REGISTER), one()))
}

/// Emits the signal and waits for the next instant.
fn next_instant() -> Process {
    sequence(
        Process::Emit(SIGNAL),
        watching(SIGNAL, when(ABSENT, Process::Nil)),
    )
}

fn long_run(title: &'static str, root: Process, limit: u32, log: usize) -> LongRun {
    LongRun {
        title,
        root,
        limit,
        list: vec![],
        log,
    }
}

impl LongRun {
    /// Lists the signal in these instants.
    fn listed(mut self, instants: impl IntoIterator<Item = u32>) -> LongRun {
        let words = |instant| [instant, SIGNAL as u32];
        self.list = instants.into_iter().flat_map(words).collect();
        self
    }
}

/// Runs with empty lists.
fn runs() -> Vec<LongRun> {
    let threads = parallel(next_instant(), sequence(count(), Process::Emit(SIGNAL)));
    let words = 100_000 * LINE_WORDS;
    vec![
        long_run(
            "a loop that does nothing",
            forever(Process::Nil),
            MOST_STEPS,
            8,
        ),
        long_run(
            "a wait that never ends",
            when(ABSENT, Process::Nil),
            MOST_STEPS,
            8,
        ),
        long_run("a counter", forever(count()), MOST_STEPS - 1, 4 * words),
        long_run(
            "a counter that fills the log",
            forever(count()),
            MOST_STEPS,
            words / 2 + 3,
        ),
        long_run(
            "an instant in each round",
            forever(next_instant()),
            200_000,
            words,
        ),
        long_run(
            "two threads in each round",
            forever(threads),
            200_000,
            words,
        ),
    ]
}

/// Counts once in each instant in which the signal is present.
fn count_instants() -> Process {
    let wait = when(ABSENT, Process::Nil);
    forever(sequence(
        when(SIGNAL, Process::Nil),
        watching(SIGNAL, sequence(count(), wait)),
    ))
}

/// Runs with long waits, and with long lists.
fn listed_runs() -> Vec<LongRun> {
    let once = || when(SIGNAL, count());
    let (never, words) = (u32::MAX, 200_000 * LINE_WORDS);
    vec![
        long_run("a wait of 900,000 instants", once(), MOST_STEPS, 8).listed([900_000]),
        long_run("a wait for the last instant", once(), MOST_STEPS, 8).listed([MOST_STEPS]),
        long_run("a wait for the last but one", once(), MOST_STEPS, 8).listed([MOST_STEPS - 1]),
        long_run("a wait for one too late", once(), MOST_STEPS, 8).listed([MOST_STEPS + 1, never]),
        long_run(
            "waits one after the other",
            count_instants(),
            MOST_STEPS,
            words,
        )
        .listed([1, 300_000, 300_001, 650_000, 999_990, 999_999, MOST_STEPS]),
        long_run(
            "a signal in each instant",
            count_instants(),
            MOST_STEPS,
            words,
        )
        .listed(1..=300_000),
        long_run(
            "a signal in every third",
            count_instants(),
            MOST_STEPS,
            words,
        )
        .listed((1..=200_000).map(|third| 3 * third)),
        long_run("a pair that repeats", once(), 9, 8).listed(vec![5; 300_000]),
        long_run("a list that falls late", once(), 9, 8).listed((5..300_000).chain([9])),
    ]
}

/// Runs with emissions that find their signal present. The log is full from the first emission on, or fills late.
fn repeating_runs() -> Vec<LongRun> {
    let twice = sequence(Process::Emit(SIGNAL), next_instant());
    vec![
        long_run(
            "an emission in each round",
            forever(Process::Emit(SIGNAL)),
            MOST_STEPS,
            LINE_WORDS,
        ),
        long_run(
            "an emission of a listed signal in each instant",
            forever(next_instant()),
            200_000,
            LINE_WORDS,
        )
        .listed(1..=50_000),
        long_run(
            "two emissions in each instant until the log is full",
            forever(twice),
            MOST_STEPS,
            50_000 * LINE_WORDS + 3,
        ),
    ]
}

/// Compares each run; gives its title, and how library and reference differ.
pub fn compare_all() -> Vec<(&'static str, Result<(), String>)> {
    let all = [runs(), listed_runs(), repeating_runs()];
    let all = all.into_iter().flatten();
    all.map(|run| (run.title, compare_run(run))).collect()
}

fn compare_run(run: LongRun) -> Result<(), String> {
    let name = |signal| Name { signal, level: 0 };
    let names = vec![name(false), name(true), name(true)];
    let root = run.root;
    let file = file::write_names_in_order(&Script { names, root }, &mut Rng::new(1));
    let case = Case {
        book: vec![1, 0, 1],
        script: file.bytes(),
        reader: 0,
        values: vec![0; 3],
        limit: run.limit,
        list: run.list,
        log: run.log,
    };
    let reference = Reference(Rules::default());
    compare(&Raw, &reference, &case)?;
    compare(&Raw, &Wrapper, &case).map(|_| ())
}
