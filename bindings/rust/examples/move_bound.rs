//! A dispatcher asks how many moves a script can make in its whole run, whatever signals arrive, and holds a run to the
//! answer.
use station::{check, run, Refusal};

/// Two levels, 0 at or below 1.
const BOOK: [u8; 5] = [0x02, 0x00, 0x03, 0x00, 0x02];

/// `(when lock do locked := 1) parallel (when tilt do tilted := 1)`
const BOTH: [u8; 80] = [
    0x00, 0x00, 0xFF, 0xFF, // name 0, locked: register, level 0, of the session
    0x00, 0x00, 0xFF, 0xFF, // name 1, tilted: register, level 0, of the session
    0x01, 0x00, 0xFF, 0xFF, // name 2, lock: signal, level 0, of the session
    0x01, 0x00, 0xFF, 0xFF, // name 3, tilt: signal, level 0, of the session
    0x00, 0x00, 0x00, 0x00, 0x00, 0x00, 0x00, 0x01, // expression 0: the constant 1
    0x00, 0x00, 0x00, 0x00, 0x00, 0x00, 0x00, 0x01, // expression 1: the constant 1
    0x01, 0x00, 0x00, 0x00, 0x00, 0x00, 0x00, 0x00, // node 0: locked := expression 0
    0x09, 0x00, 0x00, 0x02, 0x00, 0x00, 0x00, 0x00, // node 1: when lock do node 0
    0x01, 0x00, 0x00, 0x01, 0x00, 0x01, 0x00, 0x00, // node 2: tilted := expression 1
    0x09, 0x00, 0x00, 0x03, 0x00, 0x02, 0x00, 0x00, // node 3: when tilt do node 2
    0x0A, 0x00, 0x00, 0x01, 0x00, 0x03, 0x00, 0x00, // node 4: node 1 parallel node 3
    0x00, 0x10, 0x00, 0x20, 0x00, 0x48, 0x53, 0x54, // tail: 16, 32, 72, then the mark
];

const LOCK: u32 = 2;
const TILT: u32 = 3;

/// `while 1 do (when lock do nil)`
const AGAIN: [u8; 44] = [
    0x01, 0x00, 0xFF, 0xFF, // name 0, lock: signal, level 0, of the session
    0x00, 0x00, 0x00, 0x00, 0x00, 0x00, 0x00, 0x01, // expression 0: the constant 1
    0x00, 0x00, 0x00, 0x00, 0x00, 0x00, 0x00, 0x00, // node 0: nil
    0x09, 0x00, 0x00, 0x00, 0x00, 0x00, 0x00, 0x00, // node 1: when lock do node 0
    0x04, 0x00, 0x00, 0x00, 0x00, 0x01, 0x00, 0x00, // node 2: while expression 0 do node 1
    0x00, 0x04, 0x00, 0x0C, 0x00, 0x24, 0x53, 0x54, // tail: 4, 12, 36, then the mark
];

fn print_bound(what: &str, moves: Option<u32>) {
    match moves {
        Some(most) => println!("{what}: at most {most} moves"),
        None => println!("{what}: no bound"),
    }
}

fn main() -> Result<(), Refusal> {
    let list = [[3, TILT], [7, LOCK]]; // the script waits for them without a move
    let (mut values, mut log) = ([0; 4], [0; 16]);

    let moves = check(&BOOK, &BOTH)?.moves;
    print_bound("lock and tilt", moves);
    let list = list.as_flattened();
    let run = run(&BOOK, &BOTH, 0, &mut values, 1000, list, &mut log)?;
    println!(
        "a run: {} moves of at most {}, {} steps less {} instants",
        run.steps - run.instants,
        moves.unwrap_or(0),
        run.steps,
        run.instants
    );
    print_bound("lock again and again", check(&BOOK, &AGAIN)?.moves);
    Ok(())
}
