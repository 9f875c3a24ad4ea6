//! Checks and runs the script `x := 7` and prints what the program `station` prints.
use station::{check, lines, run, Ending, Refusal};
use std::process::ExitCode;

/// Two levels, 0 at or below 1.
const BOOK: [u8; 5] = [0x02, 0x00, 0x03, 0x00, 0x02];

const SCRIPT: [u8; 28] = [
    0x00, 0x00, 0xFF, 0xFF, // name 0: register, level 0, of the session
    0x00, 0x00, 0x00, 0x00, 0x00, 0x00, 0x00, 0x07, // expression 0: the constant 7
    0x01, 0x00, 0x00, 0x00, 0x00, 0x00, 0x00, 0x00, // node 0: assign name 0, expression 0
    0x00, 0x04, 0x00, 0x0C, 0x00, 0x14, 0x53, 0x54, // tail: 4, 12, 20, then the mark
];

fn ending_name(ending: Ending) -> &'static str {
    match ending {
        Ending::Finished => "finished",
        Ending::Spent => "spent",
        Ending::LogFull => "log full",
        _ => "unknown",
    }
}

fn check_and_run() -> Result<(), Refusal> {
    let mut values = [0];
    let mut log = [0; 4 * 256];
    let accepted = check(&BOOK, &SCRIPT)?;
    let run = run(&BOOK, &SCRIPT, 0, &mut values, 1000, &[], &mut log)?;
    println!("accepted {} {}", accepted.write, accepted.test);
    for line in lines(&log, run.lines) {
        println!(
            "{} {} {} {}",
            line.step, line.instant, line.name, line.value
        );
    }
    println!("{} {} {}", ending_name(run.ending), run.steps, run.instants);
    Ok(())
}

fn main() -> ExitCode {
    match check_and_run() {
        Ok(()) => ExitCode::SUCCESS,
        Err(refusal) => {
            println!("refused {} {}", refusal.reason.number(), refusal.place);
            ExitCode::FAILURE
        }
    }
}
