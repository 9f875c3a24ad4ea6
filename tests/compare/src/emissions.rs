//! What the emissions of a run brought about, for the coverage: one by which no wrong rule would show tests
//! nothing. A repeat is an emission that finds its signal present.

use crate::coverage::{FLOOR, USUAL};
use crate::engine::Reference;
use crate::outcome::{outcome, Outcome};
use cases::Case;
use reference::{Fault, Rules};

/// Few loops enter a local again in one instant, and emit its signal each time.
const RENEWED_FLOOR: u64 = 100;

/// What a run may show, with its floor, and a wrong rule by which the run would be another one.
const SHOWN: [(&str, u64, Fault); 14] = [
    ("a line of an emission", USUAL / 60, Fault::NoEmissionIsLine),
    (
        "a repeat of any level",
        USUAL / 60,
        Fault::RepeatTakesNoStep,
    ),
    (
        "a repeat that the reader may see",
        USUAL / 60,
        Fault::RepeatIsLine,
    ),
    (
        "a repeat of a signal that was not written last",
        USUAL / 60,
        Fault::RepeatsInARowOnly,
    ),
    (
        "a repeat of an owned signal",
        FLOOR,
        Fault::OwnedRepeatIsLine,
    ),
    (
        "a repeat of a listed signal",
        FLOOR,
        Fault::ListedSignalIsLine,
    ),
    (
        "a repeat of a signal that the start has",
        FLOOR,
        Fault::StartSignalIsLine,
    ),
    (
        "a repeat at an exactly full log",
        FLOOR,
        Fault::RepeatNeedsRoom,
    ),
    (
        "a line that has room since repeats take none",
        FLOOR,
        Fault::RepeatsUseLog,
    ),
    ("log full at an emission", FLOOR, Fault::EmissionNeedsNoRoom),
    (
        "a line of a signal that the instant before had",
        FLOOR,
        Fault::InstantForgotten,
    ),
    (
        "a line of a signal that had one before",
        FLOOR,
        Fault::OneLineInARun,
    ),
    (
        "a line after a local was entered again",
        RENEWED_FLOOR,
        Fault::RenewalForgotten,
    ),
    (
        "a line of an assignment of an equal value",
        FLOOR,
        Fault::EqualAssignmentIsNoLine,
    ),
];

/// How many notes there are.
pub const NOTES: usize = SHOWN.len();

/// The notes, each with its floor.
pub fn notes() -> [(&'static str, u64); NOTES] {
    SHOWN.map(|(note, floor, _)| (note, floor))
}

/// Which of the notes hold of a run that was not refused. The second interpreter runs the case again by each
/// wrong rule.
pub fn reached(case: &Case, ran: &Outcome) -> [bool; NOTES] {
    SHOWN.map(|(_, _, fault)| {
        let rules = Rules { fault: Some(fault) };
        outcome(&Reference(rules), case).as_ref() != Ok(ran)
    })
}

#[cfg(test)]
mod tests {
    use super::*;
    use cases::file;
    use cases::tree::*;
    use cases::Rng;

    /// What `emit s; emit s` shows with a log of so many lines.
    fn shown(present: i32, lines: usize) -> Vec<&'static str> {
        let signal = Name {
            signal: true,
            level: 0,
        };
        let script = Script {
            names: vec![signal],
            root: sequence(Process::Emit(0), Process::Emit(0)),
        };
        let case = Case {
            book: vec![1, 0, 1],
            script: file::write(&script, &mut Rng::new(1)).bytes(),
            reader: 0,
            values: vec![present],
            limit: 9,
            list: vec![],
            log: 4 * lines,
        };
        let right = Reference(Rules::default());
        let reached = reached(&case, &outcome(&right, &case).unwrap());
        let notes = SHOWN.iter().zip(reached);
        let held = notes.filter(|&(_, reached)| reached);
        held.map(|(shown, _)| shown.0).collect()
    }

    #[test]
    fn the_notes_of_two_emissions() {
        let (line, full) = ("a line of an emission", "a repeat at an exactly full log");
        let repeat = ["a repeat of any level", "a repeat that the reader may see"];
        let start = "a repeat of a signal that the start has";
        let written = "a repeat of a signal that was not written last";
        assert_eq!(shown(0, 2), [line, repeat[0], repeat[1]]);
        assert_eq!(shown(0, 1), [line, repeat[0], repeat[1], full]);
        assert_eq!(shown(0, 0), [line, "log full at an emission"]);
        assert_eq!(shown(1, 2), [repeat[0], repeat[1], written, start]);
    }
}
