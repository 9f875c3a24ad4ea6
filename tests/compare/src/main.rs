//! Compares the library with the second interpreter; `USAGE` has the commands.

use compare::checks;
use compare::coverage::Coverage;
use compare::report::Report;
use compare::sweep;
use std::process::ExitCode;

const USAGE: &str = "\
compare [cases] [seed]                 the comparison, with a table of what it reached
compare demand-three [pairs] [seed]    two runs from starts and with lists that agree for a reader
compare flows [seed]                   what scripts would need, under every book of few levels
compare moves [seed]                   how many moves scripts make, and that wrong rules make more
compare faults [seed]                  every planted fault must be found
compare examples                       the papers' examples
compare case SEED                      one case again, by the seed that a difference names
compare all                            all of these, as the gate runs them";

const CASES: u64 = 60_000;
const PAIRS: u64 = 20_000;
const SEED: u64 = 1;

fn main() -> ExitCode {
    let arguments: Vec<String> = std::env::args().skip(1).collect();
    let number = |place: usize, usual: u64| match arguments.get(place) {
        Some(text) => text.parse().map_err(|_| format!("not a number: {text}")),
        None => Ok(usual),
    };
    let command = arguments.first().map_or("", String::as_str);
    let passed = match command {
        "demand-three" => {
            number(1, PAIRS).and_then(|pairs| Ok(demand_three(pairs, number(2, SEED)?)))
        }
        "flows" => number(1, SEED).map(flows),
        "moves" => number(1, SEED).map(|seed| reported(|report| checks::moves(report, seed))),
        "faults" => number(1, SEED).map(|seed| reported(|report| checks::faults(report, seed))),
        "examples" => Ok(reported(checks::examples)),
        "case" => number(1, SEED).map(one_case),
        "all" => Ok(all()),
        _ => number(0, CASES).and_then(|cases| Ok(compare(cases, number(1, SEED)?))),
    };
    match passed {
        Ok(true) => ExitCode::SUCCESS,
        Ok(false) => ExitCode::FAILURE,
        Err(says) => {
            eprintln!("{says}\n{USAGE}");
            ExitCode::FAILURE
        }
    }
}

/// Runs checks, prints how many passed, and gives whether all did.
fn reported(checks: impl FnOnce(&mut Report)) -> bool {
    let mut report = Report::default();
    checks(&mut report);
    report.finish();
    report.all_passed()
}

fn compare(cases: u64, seed: u64) -> bool {
    let coverage = match sweep::sweep(cases, seed) {
        Ok(coverage) => coverage,
        Err(difference) => {
            println!("{difference}");
            return false;
        }
    };
    print!("{coverage}");
    let missing = coverage.missing();
    missing
        .iter()
        .for_each(|says| println!("below the floor: {says}"));
    println!("compared {cases} cases, 0 differences");
    missing.is_empty()
}

fn demand_three(pairs: u64, seed: u64) -> bool {
    reported(|report| {
        report.tables = true;
        checks::demand_three(report, pairs, seed);
        checks::leaks(report, seed);
    })
}

fn flows(seed: u64) -> bool {
    reported(|report| {
        report.tables = true;
        checks::needed_books(report, seed);
    })
}

fn one_case(seed: u64) -> bool {
    println!("{}", sweep::describe(seed));
    match sweep::one(seed, &mut Coverage::default()) {
        Ok(()) => println!("0 differences"),
        Err(difference) => {
            println!("{difference}");
            return false;
        }
    }
    true
}

fn all() -> bool {
    reported(|report| {
        checks::examples(report);
        checks::comparison(report, CASES, SEED);
        checks::long_runs(report);
        checks::small_lists(report);
        checks::small_loops(report);
        checks::demand_three(report, PAIRS, SEED);
        checks::leaks(report, SEED);
        checks::needed_books(report, SEED);
        checks::moves(report, SEED);
        checks::faults(report, SEED);
    })
}
