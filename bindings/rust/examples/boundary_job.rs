//! A firm asks which flows its script relies on, before it agrees on levels with its neighbour.
//!
//! Level 0 is the public record, 1 our firm's claim, 2 the neighbour's claim, 3 the office, which reads both claims.
use station::{check, flows, Refusal};

/// `(if tolerance < claim then notice := 1 else nil); filed := claim`
const SCRIPT: [u8; 104] = [
    0x00, 0x00, 0xFF, 0xFF, // name 0, tolerance: register, level 0, of the session
    0x00, 0x01, 0xFF, 0xFF, // name 1, claim: register, level 1, of the session
    0x00, 0x02, 0xFF, 0xFF, // name 2, notice: register, level 2, of the session
    0x00, 0x03, 0xFF, 0xFF, // name 3, filed: register, level 3, of the session
    0x01, 0x00, 0x00, 0x00, 0x00, 0x00, 0x00, 0x00, // expression 0: tolerance
    0x01, 0x00, 0x00, 0x01, 0x00, 0x00, 0x00, 0x00, // expression 1: claim
    0x06, 0x00, 0x00, 0x00, 0x00, 0x01, 0x00,
    0x00, // expression 2: expression 0 < expression 1
    0x00, 0x00, 0x00, 0x00, 0x00, 0x00, 0x00, 0x01, // expression 3: the constant 1
    0x01, 0x00, 0x00, 0x01, 0x00, 0x00, 0x00, 0x00, // expression 4: claim
    0x01, 0x00, 0x00, 0x02, 0x00, 0x03, 0x00, 0x00, // node 0: notice := expression 3
    0x00, 0x00, 0x00, 0x00, 0x00, 0x00, 0x00, 0x00, // node 1: nil
    0x03, 0x00, 0x00, 0x02, 0x00, 0x00, 0x00,
    0x01, // node 2: if expression 2 then node 0 else node 1
    0x01, 0x00, 0x00, 0x03, 0x00, 0x04, 0x00, 0x00, // node 3: filed := expression 4
    0x05, 0x00, 0x00, 0x02, 0x00, 0x03, 0x00, 0x00, // node 4: node 2; node 3
    0x00, 0x10, 0x00, 0x38, 0x00, 0x60, 0x53, 0x54, // tail: 16, 56, 96, then the mark
];

/// 0 below 1 and 2, these below 3; neither claim may flow to the other.
const SIDE_BY_SIDE: [u8; 9] = [0x04, 0x00, 0x0F, 0x00, 0x0A, 0x00, 0x0C, 0x00, 0x08];

/// The same, and 1 below 2: our claim may flow to the neighbour.
const OURS_BELOW: [u8; 9] = [0x04, 0x00, 0x0F, 0x00, 0x0E, 0x00, 0x0C, 0x00, 0x08];

fn print_check(agreed: &str, book: &[u8]) {
    match check(book, &SCRIPT) {
        Ok(accepted) => println!("{agreed}: accepted {} {}", accepted.write, accepted.test),
        Err(refusal) => println!(
            "{agreed}: refused {} {}",
            refusal.reason.number(),
            refusal.place
        ),
    }
}

fn main() -> Result<(), Refusal> {
    for (from, to) in flows(&SCRIPT)?.pairs() {
        println!("level {from} to level {to}");
    }
    print_check("claims side by side", &SIDE_BY_SIDE);
    print_check("our claim below theirs", &OURS_BELOW);
    Ok(())
}
