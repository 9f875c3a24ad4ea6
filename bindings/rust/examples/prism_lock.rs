//! Runs `when lock do x := 1` for an instrument whose prism lock arrives in instant 3, and prints the record.
use station::{lines, run, Refusal};

/// Two levels, 0 at or below 1.
const BOOK: [u8; 5] = [0x02, 0x00, 0x03, 0x00, 0x02];

const SCRIPT: [u8; 40] = [
    0x00, 0x00, 0xFF, 0xFF, // name 0, x: register, level 0, of the session
    0x01, 0x00, 0xFF, 0xFF, // name 1, lock: signal, level 0, of the session
    0x00, 0x00, 0x00, 0x00, 0x00, 0x00, 0x00, 0x01, // expression 0: the constant 1
    0x01, 0x00, 0x00, 0x00, 0x00, 0x00, 0x00, 0x00, // node 0: assign name 0, expression 0
    0x09, 0x00, 0x00, 0x01, 0x00, 0x00, 0x00, 0x00, // node 1: when name 1, body node 0
    0x00, 0x08, 0x00, 0x10, 0x00, 0x20, 0x53, 0x54, // tail: 8, 16, 32, then the mark
];

const LOCK: u32 = 1;

fn main() -> Result<(), Refusal> {
    let list = [[3, LOCK]];
    let mut values = [0, 0];
    let mut log = [0; 4 * 256];
    let run = run(
        &BOOK,
        &SCRIPT,
        0,
        &mut values,
        1000,
        list.as_flattened(),
        &mut log,
    )?;
    for line in lines(&log, run.lines) {
        println!(
            "step {}, instant {}: name {} is {}",
            line.step, line.instant, line.name, line.value
        );
    }
    println!("{:?} after {} steps", run.ending, run.steps);
    Ok(())
}
