//! Demand 3: two runs of an accepted script, from starts that agree on what the reader may see, with lists
//! that agree for the reader, step limits n ≤ m and logs of one length. The first record is exactly those
//! lines of the second that are stamped n or less; with n = m the session registers at or below the reader's
//! level end equal.

use crate::book::at_or_below;
use crate::engine::{Engine, RunArguments, CHECK_WORDS};
use crate::outcome::fresh_log;
use crate::sweep::case_seed;
use crate::tally::Tally;
use crate::two_lists::TwoLists;
use cases::file::{File, NameEntry, SESSION};
use cases::{Case, Rng};
use std::fmt;

/// Two runs that show a reader what is sealed.
pub struct Violation {
    pub seed: u64,
    pub reader: u32,
    pub says: String,
    /// How many pairs were tried up to this one.
    pub pairs: u64,
}

impl fmt::Display for Violation {
    fn fmt(&self, out: &mut fmt::Formatter) -> fmt::Result {
        let Violation {
            seed,
            reader,
            says,
            pairs,
        } = self;
        write!(
            out,
            "case seed {seed}, reader {reader}, pair {pairs}: {says}"
        )
    }
}

/// What the two runs of a pair differ in.
#[derive(Clone, Copy, Debug, PartialEq, Eq)]
pub enum Vary {
    /// Sealed values of the start, and lists that agree for the reader: what demand 3 allows.
    StartsAndLists,
    /// Lists that agree for the reader, and nothing else.
    Lists,
    /// A signal that the reader may see, which one of the lists leaves out: what demand 3 does not allow.
    SeenSignal,
}

/// Tries `count` pairs of runs: accepted scripts, all readers.
pub fn sweep(engine: &dyn Engine, vary: Vary, count: u64, seed: u64) -> Result<Tally, Violation> {
    let mut tally = Tally::new(count);
    // Not every case is accepted; the bound ends the loop for an engine that accepts none.
    for number in 0..count {
        let seed = case_seed(seed, number);
        let mut rng = Rng::new(seed);
        let case = cases::accepted_leaning(&mut rng);
        let readers = if accepted(engine, &case) {
            case.book[0]
        } else {
            0
        };
        for reader in 0..u32::from(readers) {
            let result = pair(engine, vary, &case, reader, &mut rng, &mut tally);
            let pairs = tally.pairs;
            result.map_err(|says| Violation {
                seed,
                reader,
                says,
                pairs,
            })?;
        }
        if tally.pairs >= count {
            break;
        }
    }
    Ok(tally)
}

fn accepted(engine: &dyn Engine, case: &Case) -> bool {
    let mut out = [1; CHECK_WORDS];
    engine.check(&case.book, &case.script, &mut out);
    out[0] == 0
}

/// What a run begins with, beside what both runs have in common.
pub struct Start {
    pub values: Vec<i32>,
    pub list: Vec<u32>,
    pub limit: u32,
}

/// One run and what it leaves.
pub struct Ran {
    /// Number, place, ending, steps, instants, lines.
    pub out: [u32; 6],
    pub values: Vec<i32>,
    pub log: Vec<u32>,
}

impl Ran {
    fn new(engine: &dyn Engine, case: &Case, reader: u32, start: &Start) -> Ran {
        let mut ran = Ran {
            out: [0; 6],
            values: start.values.clone(),
            log: fresh_log(case.log),
        };
        let arguments = RunArguments {
            reader,
            values: &mut ran.values,
            limit: start.limit,
            list: &start.list,
            log: &mut ran.log,
        };
        engine.run(&case.book, &case.script, arguments, &mut ran.out);
        ran
    }

    /// The lines stamped with at most `limit`.
    fn record(&self, limit: u32) -> Vec<&[u32]> {
        let lines = self.log.chunks_exact(4).take(self.out[5] as usize);
        lines.filter(|line| line[0] <= limit).collect()
    }
}

/// Two value lists that agree on what the reader may see. Some are equal, so that lists alone differ.
fn two_values(
    vary: Vary,
    file: &File,
    is_low: &dyn Fn(&NameEntry) -> bool,
    rng: &mut Rng,
) -> [Vec<i32>; 2] {
    let first = cases::values(rng, file);
    let other = cases::values(rng, file);
    let mut second = first.clone();
    let differ = vary == Vary::StartsAndLists && rng.chance(3, 4);
    for (place, name) in file.names.iter().enumerate() {
        if differ && !is_low(name) && rng.chance(3, 4) {
            second[place] = other[place];
        }
    }
    [first, second]
}

/// The starts of a pair with limits n ≤ m.
fn starts(
    vary: Vary,
    case: &Case,
    file: &File,
    is_low: &dyn Fn(&NameEntry) -> bool,
    rng: &mut Rng,
) -> [Start; 2] {
    let [first, second] = two_values(vary, file, is_low, rng);
    let mut lists = TwoLists::new(rng, file, is_low);
    if vary == Vary::SeenSignal {
        lists.leave_out_seen(rng);
    }
    // The test itself is at fault if it tries other lists than it says.
    assert!(lists.agree() || vary == Vary::SeenSignal);
    let [one, other] = lists.words();
    let n = match rng.chance(1, 2) {
        true => case.limit,
        false => rng.below(case.limit as usize + 1) as u32,
    };
    let start = |values, list, limit| Start {
        values,
        list,
        limit,
    };
    [start(first, one, n), start(second, other, case.limit)]
}

/// Runs a pair; an error says how the reader can tell the runs apart.
fn pair(
    engine: &dyn Engine,
    vary: Vary,
    case: &Case,
    reader: u32,
    rng: &mut Rng,
    tally: &mut Tally,
) -> Result<(), String> {
    let Some(file) = File::read(&case.script) else {
        return Ok(());
    };
    let is_low = |name: &NameEntry| at_or_below(&case.book, name.level.into(), reader);
    let starts = starts(vary, case, &file, &is_low, rng);
    let (n, m) = (starts[0].limit, starts[1].limit);
    let [first, second] = [0, 1].map(|run: usize| Ran::new(engine, case, reader, &starts[run]));
    if first.out[0] != 0 || second.out[0] != 0 {
        return Ok(());
    }
    tally.record([&first, &second], &starts);
    if first.record(u32::MAX) != second.record(n) {
        return Err("the records differ".into());
    }
    let seen = |name: &NameEntry| name.kind == 0 && name.owner == SESSION && is_low(name);
    let unequal = |place: usize| first.values[place] != second.values[place];
    let differs = (0..file.names.len()).find(|&place| seen(&file.names[place]) && unequal(place));
    match differs {
        Some(name) if n == m => Err(format!("register {name} ends differently")),
        _ => Ok(()),
    }
}
