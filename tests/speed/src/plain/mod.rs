//! A plain interpreter of the rules of 01, the rival of the benchmark: what a Rust programmer writes without proofs.
//!
//! A call decodes the files once into vectors of enums and keeps one state per node; an owned name has its own slot in
//! the value list, and of the signal list the pairs that are still to come are kept. There are two variants.
//!
//! - Walking, the obvious one: each step is a walk from the root. `step` moves what is in front or answers that it is
//!   suspended, so that of a parallel only the other part has to be asked besides; `change` is the instant change.
//! - Resting, the cleverer one, as the library does it: a node is run as far as it goes within the instant, so that a
//!   step under many nodes costs no walk through them.

mod book;
mod expression;
mod faults;
mod flow;
mod flows;
mod layout;
mod machine;
mod move_bound;
mod reach;
mod resting;
mod script;

use book::{Book, MAX_LEVELS};
pub use flows::Flows;
use machine::Machine;
use script::{Name, Script};

/// Number and place of 01's table.
#[derive(Clone, Copy)]
pub struct Refusal {
    number: u32,
    place: u32,
}

/// Only a pair of the list can have a place that takes more than 32 bits.
fn refusal(number: u32, place: usize) -> Refusal {
    Refusal {
        number,
        place: place.try_into().unwrap_or(u32::MAX),
    }
}

/// The most steps that a call may allow.
const MAX_STEPS: u32 = 1_000_000;

/// Number, place, W, T, whether there is a figure, and the figure: the most moves of a run.
pub fn check(book: &[u8], script: &[u8]) -> [u32; 6] {
    match prepare(book, script) {
        Ok((_, script, levels)) => {
            let moves = move_bound::most_moves(&script);
            let bounded = u32::from(moves.is_some());
            let (write, test) = (levels.write as u32, levels.test as u32);
            [0, 0, write, test, bounded, moves.unwrap_or(0)]
        }
        Err(refusal) => [refusal.number, refusal.place, 0, 0, 0, 0],
    }
}

/// Number and place, and the flows that the script needs.
pub fn flows(script: &[u8]) -> ([u32; 2], Flows) {
    match script::load(script, MAX_LEVELS) {
        Ok(script) => ([0, 0], flows::flows(&script)),
        Err(refusal) => ([refusal.number, refusal.place], [0; MAX_LEVELS]),
    }
}

#[derive(Clone, Copy)]
pub enum Variant {
    Walking,
    Resting,
}

/// An instant, and a signal that is present as it begins.
type Pair = [u32; 2];

/// What a run takes beside the level book and the script.
pub struct Arguments<'a> {
    pub reader: u32,
    pub values: &'a mut [i32],
    pub limit: u32,
    pub list: &'a [u32],
    pub log: &'a mut [u32],
}

/// Number, place, ending, steps, instants, lines.
pub fn run(variant: Variant, book: &[u8], script: &[u8], arguments: Arguments) -> [u32; 6] {
    let limit = arguments.limit;
    let accepted = prepare(book, script).and_then(|(book, script, _)| {
        call_refusal(&book, &script, &arguments)?;
        let pairs = pairs(&script, arguments.list)?;
        Ok((book, script, pairs))
    });
    match accepted {
        Ok((book, script, pairs)) => {
            Machine::new(&book, &script, pairs, arguments).run(variant, limit)
        }
        Err(refusal) => [refusal.number, refusal.place, 0, 0, 0, 0],
    }
}

/// Refusals 1 to 11.
fn prepare(book: &[u8], script: &[u8]) -> Result<(Book, Script, flow::Levels), Refusal> {
    let book = book::load(book)?;
    let script = script::load(script, book.count)?;
    let levels = flow::levels(&book, &script)?;
    Ok((book, script, levels))
}

/// Refusals 12 to 14.
fn call_refusal(book: &Book, script: &Script, arguments: &Arguments) -> Result<(), Refusal> {
    let (names, values) = (&script.names, &arguments.values);
    if arguments.reader as usize >= book.count {
        return Err(refusal(12, 0));
    }
    if values.len() != names.len() {
        return Err(refusal(13, 0));
    }
    let mut starts = names.iter().zip(values.iter());
    if let Some(x) = starts.position(|(name, &value)| !may_start_with(name, value)) {
        return Err(refusal(13, x));
    }
    if arguments.limit > MAX_STEPS {
        return Err(refusal(14, 0));
    }
    Ok(())
}

fn may_start_with(name: &Name, value: i32) -> bool {
    value == 0 || (name.is_session() && (!name.signal || value == 1))
}

/// The pairs of a list, or refusal 15.
fn pairs<'a>(script: &Script, list: &'a [u32]) -> Result<&'a [Pair], Refusal> {
    let (pairs, half) = list.as_chunks();
    let mut least = 1;
    for (i, &[instant, name]) in pairs.iter().enumerate() {
        if instant < least || !is_session_signal(script, name) {
            return Err(refusal(15, i));
        }
        least = instant;
    }
    if half.is_empty() {
        Ok(pairs)
    } else {
        Err(refusal(15, pairs.len()))
    }
}

fn is_session_signal(script: &Script, name: u32) -> bool {
    let name = script.names.get(name as usize);
    name.is_some_and(|name| name.signal && name.is_session())
}
