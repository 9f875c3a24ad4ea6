//! Which pairs of levels show in W and T, for the coverage: a book none of whose joins and meets a script
//! takes tests little of how they are found.

use crate::coverage::USUAL;
use crate::outcome::Outcome;
use cases::Case;
use reference::{Fault, Rules};

/// What W and T may come from, with its floor.
pub const NOTES: [(&str, u64); 6] = [
    ("W by the meet of a pair side by side", USUAL / 200),
    ("T by the join of a pair side by side", USUAL / 200),
    ("W by the meet of the last of several pairs", USUAL / 150),
    ("T by the join of the last of several pairs", USUAL / 150),
    ("W by the meet of a pair from high to low", USUAL / 20),
    ("T by the join of a pair from high to low", USUAL / 20),
];

/// For each two notes a wrong rule about such pairs, by which W or T would be another level.
const WRONG: [Fault; NOTES.len() / 2] = [
    Fault::SideBySideByNumber,
    Fault::LastPairLeft,
    Fault::LevelsExchanged,
];

/// Which of the notes hold of an accepted script. The second interpreter checks it again by each wrong rule.
pub fn reached(case: &Case, right: &Outcome) -> [bool; NOTES.len()] {
    let several = case.book.first().is_some_and(|&count| count > 2);
    let shows = |fault: Fault| {
        let rules = Rules { fault: Some(fault) };
        let wrong = reference::check(rules, &case.book, &case.script);
        let counts = wrong.number == 0 && (several || fault != Fault::LastPairLeft);
        [wrong.write != right.check[2], wrong.test != right.check[3]].map(|other| counts && other)
    };
    let shown = WRONG.map(shows);
    std::array::from_fn(|note| shown[note / 2][note % 2])
}

#[cfg(test)]
mod tests {
    use super::*;
    use crate::engine::Reference;
    use crate::outcome::outcome;
    use cases::file;
    use cases::order::{chain, side_by_side, Order};
    use cases::tree::*;
    use cases::Rng;

    /// What `x := 0; (y := 0; (if x + y then nil else nil))` shows, with x and y at two levels.
    fn shown(order: &Order, levels: [usize; 2]) -> Vec<&'static str> {
        let name = |level| Name {
            signal: false,
            level,
        };
        let sum = binary(ADD, Expression::Register(0), Expression::Register(1));
        let write = |name| Process::Assign(name, Expression::Constant(0));
        let tests = if_else(sum, Process::Nil, Process::Nil);
        let script = Script {
            names: levels.map(name).to_vec(),
            root: sequence(write(0), sequence(write(1), tests)),
        };
        let case = Case {
            book: order.book(),
            script: file::write(&script, &mut Rng::new(1)).bytes(),
            reader: 0,
            values: vec![0, 0],
            limit: 9,
            list: vec![],
            log: 0,
        };
        let right = outcome(&Reference(Rules::default()), &case).unwrap();
        let notes = NOTES.into_iter().zip(reached(&case, &right));
        let held = notes.filter(|&(_, reached)| reached);
        held.map(|((note, _), _)| note).collect()
    }

    #[test]
    fn the_notes_of_single_pairs() {
        let noted = |places: &[usize]| -> Vec<&str> {
            places.iter().map(|&place| NOTES[place].0).collect()
        };
        assert_eq!(shown(&side_by_side(3), [1, 2]), noted(&[0, 1]));
        assert_eq!(shown(&chain(4), [2, 3]), noted(&[2, 3]));
        assert_eq!(shown(&chain(4).converse(), [0, 1]), noted(&[4, 5]));
        assert_eq!(shown(&chain(4).converse(), [3, 2]), noted(&[2, 3, 4, 5]));
        assert_eq!(shown(&chain(4), [0, 1]), noted(&[]));
        assert_eq!(shown(&chain(2), [0, 1]), noted(&[]));
    }
}
