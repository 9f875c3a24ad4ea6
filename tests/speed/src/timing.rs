//! Sides that do the same work are timed in turn; the best time of each counts, since other work on the machine only
//! adds to it.

use std::time::{Duration, Instant};

/// Each side runs at least this often, and until all have taken `ENOUGH` together.
const LEAST_RUNS: usize = 5;
const ENOUGH: Duration = Duration::from_millis(700);

/// The best time of each of the sides, in seconds; `work(i)` is the work of side i.
pub fn in_turn<const SIDES: usize>(mut work: impl FnMut(usize)) -> [f64; SIDES] {
    let begin = Instant::now();
    let mut best = [f64::INFINITY; SIDES];
    let mut runs = 0;
    while runs < LEAST_RUNS || begin.elapsed() < ENOUGH {
        for (side, time) in best.iter_mut().enumerate() {
            let start = Instant::now();
            work(side);
            *time = time.min(start.elapsed().as_secs_f64());
        }
        runs += 1;
    }
    best
}
