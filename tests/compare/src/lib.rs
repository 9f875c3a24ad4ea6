//! The library against the second interpreter: on seeded cases, on the papers' examples, on pairs of runs
//! (demand 3), on scripts under every book of few levels (02 (e)), on scripts that make many moves (02 (f)), and
//! against the second interpreter with planted faults, each of which must show.
#![deny(unsafe_code)]

mod book;
pub mod books;
pub mod checks;
pub mod coverage;
pub mod demand_three;
pub mod difference;
pub mod divisions;
pub mod emissions;
pub mod engine;
pub mod examples;
pub mod faults;
mod floors;
mod flow_claims;
pub mod flows;
pub mod guarded;
pub mod lists;
pub mod long_runs;
pub mod move_claims;
pub mod moves;
pub mod near_figure;
pub mod needed_books;
pub mod needed_tally;
pub mod outcome;
pub mod pair_levels;
mod raw;
pub mod report;
pub mod shrink;
pub mod small_books;
pub mod small_lists;
pub mod small_loops;
mod smaller_lists;
pub mod sweep;
pub mod tally;
pub mod tightest;
mod two_lists;
