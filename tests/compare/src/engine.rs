//! The three calls of the C interface, answered by the library or by the reference.

use crate::raw;
pub use reference::RunArguments;
use reference::{CheckAnswer, Rules};
pub use station::raw::{CHECK_WORDS, FLOWS_WORDS, RUN_WORDS};
use station::{Refusal, MAX_LEVELS};

/// Something that checks and runs scripts, and says what they would need. Answers go into `out`, as the C
/// interface has it.
pub trait Engine {
    fn check(&self, book: &[u8], script: &[u8], out: &mut [u32]);
    fn flows(&self, script: &[u8], flows: &mut [u32], out: &mut [u32]);
    /// Gives the moves of the run as well: counted where an engine counts them, else steps less instants.
    fn run(&self, book: &[u8], script: &[u8], arguments: RunArguments, out: &mut [u32]) -> u32;
}

/// The steps less the instants of a run; none where `out` has another length.
pub fn moves_by_steps(out: &[u32]) -> u32 {
    match *out {
        [_, _, _, steps, instants, _] => steps.wrapping_sub(instants),
        _ => 0,
    }
}

/// The library by its C interface.
pub struct Raw;

impl Engine for Raw {
    fn check(&self, book: &[u8], script: &[u8], out: &mut [u32]) {
        raw::check(book, script, out);
    }

    fn flows(&self, script: &[u8], flows: &mut [u32], out: &mut [u32]) {
        raw::flows(script, flows, out);
    }

    fn run(&self, book: &[u8], script: &[u8], arguments: RunArguments, out: &mut [u32]) -> u32 {
        raw::run(book, script, arguments, out);
        moves_by_steps(out)
    }
}

/// The library by its safe wrapper.
pub struct Wrapper;

impl Engine for Wrapper {
    fn check(&self, book: &[u8], script: &[u8], out: &mut [u32]) {
        let answer = match station::check(book, script) {
            Ok(accepted) => {
                let bounded = u32::from(accepted.moves.is_some());
                let moves = accepted.moves.unwrap_or(0);
                [0, 0, accepted.write, accepted.test, bounded, moves]
            }
            Err(refusal) => {
                let [number, place] = numbers(refusal);
                [number, place, 0, 0, 0, 0]
            }
        };
        put(out, &answer);
    }

    fn flows(&self, script: &[u8], flows: &mut [u32], out: &mut [u32]) {
        let (answer, sets) = match station::flows(script) {
            Ok(needed) => ([0, 0], needed.words()),
            Err(refusal) => (numbers(refusal), [0; MAX_LEVELS]),
        };
        put_both(flows, &sets, out, &answer);
    }

    fn run(&self, book: &[u8], script: &[u8], arguments: RunArguments, out: &mut [u32]) -> u32 {
        let RunArguments {
            reader,
            values,
            limit,
            list,
            log,
        } = arguments;
        let answer = match station::run(book, script, reader, values, limit, list, log) {
            Ok(run) => {
                let lines = run.lines.try_into().unwrap_or(u32::MAX);
                [0, 0, run.ending.number(), run.steps, run.instants, lines]
            }
            Err(refusal) => {
                let [number, place] = numbers(refusal);
                [number, place, 0, 0, 0, 0]
            }
        };
        put(out, &answer);
        moves_by_steps(&answer)
    }
}

/// The second interpreter, by the papers' rules or with one fault.
pub struct Reference(pub Rules);

impl Engine for Reference {
    fn check(&self, book: &[u8], script: &[u8], out: &mut [u32]) {
        put(out, &check_words(reference::check(self.0, book, script)));
    }

    fn flows(&self, script: &[u8], flows: &mut [u32], out: &mut [u32]) {
        let answer = reference::flows(self.0, script);
        put_both(flows, &answer.flows, out, &[answer.number, answer.place]);
    }

    fn run(&self, book: &[u8], script: &[u8], arguments: RunArguments, out: &mut [u32]) -> u32 {
        let (answer, moves) = reference::run_counted(self.0, book, script, arguments);
        let (ending, steps) = (answer.ending, answer.steps);
        put(
            out,
            &[
                answer.number,
                answer.place,
                ending,
                steps,
                answer.instants,
                answer.lines,
            ],
        );
        moves.all
    }
}

/// What check gives, in the order of the C interface.
pub fn check_words(answer: CheckAnswer) -> [u32; CHECK_WORDS] {
    let CheckAnswer { number, place, .. } = answer;
    let CheckAnswer { write, test, .. } = answer;
    [number, place, write, test, answer.bounded, answer.moves]
}

fn numbers(refusal: Refusal) -> [u32; 2] {
    [refusal.reason.number(), refusal.place]
}

/// Writes both parts of an answer where both buffers have their lengths, and nothing elsewhere.
fn put_both(flows: &mut [u32], sets: &[u32], out: &mut [u32], answer: &[u32]) {
    if flows.len() == sets.len() && out.len() == answer.len() {
        put(flows, sets);
        put(out, answer);
    }
}

/// Writes an answer where `out` has its length, and nothing elsewhere.
fn put(out: &mut [u32], answer: &[u32]) {
    if out.len() == answer.len() {
        out.copy_from_slice(answer);
    }
}
