//! What the divisions of a run brought about, for the coverage: a division that nothing depends on tests
//! nothing. Only divisions of constants are looked at, since a file shows their operands.

use crate::engine::Engine;
use crate::outcome::{outcome, Outcome};
use cases::file::{Entry, File};
use cases::tree::{CONSTANT, DIVIDE, SUBTRACT};
use cases::Case;

/// What a division may show, with its floor. Few runs come to a division of constants that they depend on.
pub const NOTES: [(&str, u64); 8] = [
    ("a tie above zero that goes away from it", 100),
    ("a tie above zero that goes toward it", 150),
    ("a tie below zero that goes away from it", 100),
    ("a tie below zero that goes toward it", 150),
    ("a dividend beside a tie, by 65,536 or more", 120),
    ("a dividend at an end of the range", 100),
    ("a divisor at an end of the range", 100),
    ("a divisor of 0", 150),
];

/// Which of the notes hold of a run that was not refused. The engine runs the case again with subtractions
/// in place of the divisions, to see what they change.
pub fn reached(
    engine: &dyn Engine,
    case: &Case,
    ran: &Outcome,
) -> Result<[bool; NOTES.len()], String> {
    let file = File::read(&case.script).unwrap_or_default();
    let mut reached = [false; NOTES.len()];
    for (note, shows) in reached.iter_mut().enumerate() {
        let has_note = |e: &Entry| operands(&file, e).is_some_and(|(a, b)| notes(a, b)[note]);
        *shows = match without_divisions(&file, has_note) {
            Some(other) => with_file(engine, case, &other)? != *ran,
            None => false,
        };
    }
    Ok(reached)
}

/// Dividend and divisor of a division of constants.
fn operands(file: &File, e: &Entry) -> Option<(i32, i32)> {
    let constant = |field: usize| {
        let operand = file.expressions.get(e.field(field))?;
        (operand.kind == CONSTANT).then(|| operand.value())
    };
    match e.kind {
        DIVIDE => Some((constant(0)?, constant(1)?)),
        _ => None,
    }
}

/// Which of the notes hold of a dividend and a divisor.
fn notes(dividend: i32, divisor: i32) -> [bool; NOTES.len()] {
    let (a, b) = (i64::from(dividend), i64::from(divisor));
    let is_end = |x: i32| x == i32::MIN || x == i32::MAX;
    // The quotient in halves, cut toward zero; a tie is an odd number of them.
    let halves = (2 * a).checked_div(b).unwrap_or(0);
    let is_tie = halves % 2 != 0 && halves * b == 2 * a;
    let cut_is_even = halves / 2 % 2 == 0;
    // Twice the way from the dividend to the nearest tie.
    let off = (2 * a.checked_rem(b).unwrap_or(0).abs() - b.abs()).abs();
    [
        is_tie && halves > 0 && !cut_is_even,
        is_tie && halves > 0 && cut_is_even,
        is_tie && halves < 0 && !cut_is_even,
        is_tie && halves < 0 && cut_is_even,
        (1..=2).contains(&off) && b.abs() >= 65_536,
        is_end(dividend),
        is_end(divisor),
        divisor == 0,
    ]
}

/// The file with a subtraction in place of each chosen division; none if none is chosen.
fn without_divisions(file: &File, chosen: impl Fn(&Entry) -> bool) -> Option<File> {
    let mut other = file.clone();
    let divisions = other.expressions.iter_mut().filter(|e| chosen(e));
    divisions.for_each(|e| e.kind = SUBTRACT);
    (other != *file).then_some(other)
}

fn with_file(engine: &dyn Engine, case: &Case, file: &File) -> Result<Outcome, String> {
    let other = Case {
        script: file.bytes(),
        ..case.clone()
    };
    outcome(engine, &other)
}

#[cfg(test)]
mod tests {
    use super::*;

    fn held(dividend: i32, divisor: i32) -> Vec<usize> {
        let notes = notes(dividend, divisor);
        (0..NOTES.len()).filter(|&note| notes[note]).collect()
    }

    #[test]
    fn the_notes_of_single_divisions() {
        assert_eq!([held(3, 2), held(-7, -2)], [[0], [0]]);
        assert_eq!([held(1, 2), held(-5, -2)], [[1], [1]]);
        assert_eq!([held(-7, 2), held(30, -20)], [[2], [2]]);
        assert_eq!([held(-1, 2), held(50, -20)], [[3], [3]]);
        assert_eq!([held(32_767, 65_536), held(-32_769, 65_536)], [[4], [4]]);
        assert_eq!([held(i32::MIN, 3), held(5, i32::MAX)], [[5], [6]]);
        assert_eq!([held(0, 0), held(7, 0)], [[7], [7]]);
        assert_eq!(held(1 << 30, i32::MIN), [3, 6]);
        assert!([(6, 2), (7, 3), (-8, 3), (32_766, 65_536)]
            .iter()
            .all(|&(a, b)| held(a, b).is_empty()));
    }
}
