//! The library's three calls, through the safe crate, with their answers as numbers.

use station::{Accepted, Refusal, MAX_LEVELS};

/// Number, place, W, T, whether there is a figure, and the figure: the most moves of a run.
pub fn check(book: &[u8], script: &[u8]) -> [u32; 6] {
    match station::check(book, script) {
        Ok(Accepted { write, test, moves }) => {
            let bounded = u32::from(moves.is_some());
            [0, 0, write, test, bounded, moves.unwrap_or(0)]
        }
        Err(refusal) => {
            let [number, place] = numbers(refusal);
            [number, place, 0, 0, 0, 0]
        }
    }
}

/// Number and place, and the flows that the script needs.
pub fn flows(script: &[u8]) -> ([u32; 2], [u32; MAX_LEVELS]) {
    match station::flows(script) {
        Ok(flows) => ([0, 0], flows.words()),
        Err(refusal) => (numbers(refusal), [0; MAX_LEVELS]),
    }
}

/// Number, place, ending, steps, instants, lines.
pub fn run(
    book: &[u8],
    script: &[u8],
    reader: u32,
    values: &mut [i32],
    limit: u32,
    list: &[u32],
    log: &mut [u32],
) -> [u32; 6] {
    match station::run(book, script, reader, values, limit, list, log) {
        Ok(run) => {
            let ending = run.ending.number();
            [0, 0, ending, run.steps, run.instants, run.lines as u32]
        }
        Err(refusal) => {
            let [number, place] = numbers(refusal);
            [number, place, 0, 0, 0, 0]
        }
    }
}

fn numbers(refusal: Refusal) -> [u32; 2] {
    [refusal.reason.number(), refusal.place]
}
