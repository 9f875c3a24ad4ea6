//! Small scripts whose W and T are the meet and the join of two levels: they write names of both, and then
//! test names of both.

use crate::grow;
use crate::order::Lattice;
use crate::rng::Rng;
use crate::tree::*;

/// A register and a signal of each of the two levels.
const REGISTERS: [usize; 2] = [0, 1];
const SIGNALS: [usize; 2] = [2, 3];

pub fn script(rng: &mut Rng, lattice: &Lattice) -> Script {
    let levels = two_levels(rng, lattice);
    let name = |signal| move |level| Name { signal, level };
    let registers = levels.map(name(false));
    let signals = levels.map(name(true));
    Script {
        names: [registers, signals].concat(),
        root: sequence(writes(rng), tests(rng)),
    }
}

/// The last two levels, two side by side, or any two, in any order.
fn two_levels(rng: &mut Rng, lattice: &Lattice) -> [usize; 2] {
    let count = lattice.count();
    let pairs = (0..count).flat_map(|i| (0..count).map(move |j| [i, j]));
    let side_by_side = |&[i, j]: &[usize; 2]| !lattice.at_most(i, j) && !lattice.at_most(j, i);
    let last = |&[i, j]: &[usize; 2]| i != j && i.min(j) + 2 == count;
    let chosen: Vec<[usize; 2]> = match rng.below(4) {
        0 => pairs.filter(last).collect(),
        1 | 2 => pairs.filter(side_by_side).collect(),
        _ => vec![],
    };
    let any = [rng.below(count), rng.below(count)];
    rng.pick(&chosen).unwrap_or(any)
}

/// Writes a name of each level.
fn writes(rng: &mut Rng) -> Process {
    let mut write = |place: usize| match rng.chance(1, 2) {
        true => Process::Assign(REGISTERS[place], Expression::Constant(grow::value(rng))),
        false => Process::Emit(SIGNALS[place]),
    };
    let (one, other) = (write(0), write(1));
    match rng.below(3) {
        0 => sequence(one, other),
        1 => parallel(one, other),
        _ => if_else(Expression::Constant(rng.below(2) as i32), one, other),
    }
}

/// Tests a name of each level, in one expression or one after the other.
fn tests(rng: &mut Rng) -> Process {
    let [one, other] = REGISTERS.map(Expression::Register);
    let both = binary(LESS, one, other);
    match rng.below(5) {
        0 => if_else(both, Process::Nil, Process::Nil),
        1 => while_do(both, Process::Nil),
        2 => watching(SIGNALS[0], when(SIGNALS[1], Process::Nil)),
        3 => sequence(test(rng, 0), test(rng, 1)),
        _ => parallel(test(rng, 0), test(rng, 1)),
    }
}

/// Tests a name of one of the levels.
fn test(rng: &mut Rng, place: usize) -> Process {
    match rng.chance(1, 2) {
        true => when(SIGNALS[place], Process::Nil),
        false => {
            let test = Expression::Register(REGISTERS[place]);
            if_else(test, Process::Nil, Process::Nil)
        }
    }
}

#[cfg(test)]
mod tests {
    use super::*;
    use crate::order;

    #[test]
    fn many_pairs_are_side_by_side_or_the_last() {
        let mut rng = Rng::new(11);
        let lattice = Lattice::of(order::powerset(4));
        let mut seen = [0; 2];
        for _ in 0..400 {
            let [i, j] = two_levels(&mut rng, &lattice);
            let side_by_side = !lattice.at_most(i, j) && !lattice.at_most(j, i);
            seen[0] += usize::from(side_by_side);
            seen[1] += usize::from(i.min(j) == 14 && i != j);
        }
        assert!(seen[0] > 150 && seen[1] > 50, "{seen:?}");
    }
}
