//! Values and the operations on them (01, 'Script file'): signed, 32 bits.

use std::cmp::Ordering;

use crate::fault::{Fault, Rules};

/// An operation with two operands, kinds 2 to 7.
#[derive(Clone, Copy, Debug, PartialEq, Eq, Hash)]
pub enum Operation {
    Add,
    Subtract,
    Multiply,
    Divide,
    Less,
    Equal,
}

/// 'Results are exact, then clamped to −2147483648 and 2147483647.'
fn clamped(exact: i128) -> i32 {
    exact.clamp(i128::from(i32::MIN), i128::from(i32::MAX)) as i32
}

impl Operation {
    pub fn apply(self, rules: Rules, a: i32, b: i32) -> i32 {
        let (x, y) = (i128::from(a), i128::from(b));
        match self {
            Operation::Add if rules.has(Fault::SumWraps) => a.wrapping_add(b),
            Operation::Add => clamped(x + y),
            Operation::Subtract => clamped(x - y),
            Operation::Multiply if rules.has(Fault::ProductWraps) => a.wrapping_mul(b),
            Operation::Multiply => clamped(x * y),
            Operation::Divide => clamped(quotient(rules, x, y)),
            Operation::Less if rules.has(Fault::LessIsAtMost) => i32::from(a <= b),
            Operation::Less => i32::from(a < b),
            Operation::Equal => i32::from(a == b),
        }
    }
}

/// 02, request (b): 'Division now goes to the nearest whole number, a tie to the
/// even one: −7 / 2 is −4, 5 / 2 is 2, 5 / 0 remains 0, and clamping comes after.'
fn quotient(rules: Rules, x: i128, y: i128) -> i128 {
    if y == 0 {
        return i128::from(rules.has(Fault::DivisionByZeroIsOne));
    }
    match rules.fault {
        Some(Fault::DivisionRoundsDown) => floor(x, y),
        Some(Fault::DivisionCutsTowardZero) => x / y,
        _ => nearest(rules, x, y),
    }
}

/// The greatest whole number that is not above x / y.
fn floor(x: i128, y: i128) -> i128 {
    // x / y is −x / −y, and by a positive number Euclid's quotient is the floor.
    (x * y.signum()).div_euclid(y.abs())
}

/// Of the two whole numbers around x / y the nearer one.
fn nearest(rules: Rules, x: i128, y: i128) -> i128 {
    let below = floor(x, y);
    let above = below + 1;
    // |q − x / y|, times |y| to stay whole.
    let distance = |q: i128| (q * y - x).abs();
    match distance(below).cmp(&distance(above)) {
        Ordering::Less => below,
        Ordering::Greater => above,
        Ordering::Equal => tie(rules, below, above),
    }
}

/// Of two neighbours that are equally near, the even one.
fn tie(rules: Rules, below: i128, above: i128) -> i128 {
    let takes_below = match rules.fault {
        Some(Fault::TieTowardZero) => below >= 0,
        Some(Fault::TieAwayFromZero) => below < 0,
        Some(Fault::TieUp) => false,
        Some(Fault::TieToOdd) => below % 2 != 0,
        _ => below % 2 == 0,
    };
    match takes_below {
        true => below,
        false => above,
    }
}

/// 'Less, equal and not give 1 or 0.'
pub fn negated(rules: Rules, a: i32) -> i32 {
    if rules.has(Fault::NotFlipsBits) {
        return !a;
    }
    i32::from(a == 0)
}

/// 'A test holds if nonzero.'
pub fn holds(rules: Rules, a: i32) -> bool {
    if rules.has(Fault::TestHoldsIfPositive) {
        return a > 0;
    }
    a != 0
}

#[cfg(test)]
mod tests {
    use super::*;

    /// No whole number is nearer than the quotient, and where another is as near,
    /// the quotient is even. Clamping comes after, and is left out here.
    #[test]
    fn a_quotient_is_nearest_and_even_in_a_tie() {
        let ends = [i32::MIN, i32::MIN + 1, i32::MAX - 1, i32::MAX];
        let numbers = || (-40..=40).chain(ends).map(i128::from);
        let pairs = numbers().flat_map(|x| numbers().map(move |y| (x, y)));
        for (x, y) in pairs.filter(|&(_, y)| y != 0) {
            let q = quotient(Rules::default(), x, y);
            let twice_off = (2 * x - 2 * q * y).abs();
            assert!(twice_off <= y.abs(), "{x} / {y} is not {q}");
            assert!(twice_off < y.abs() || q % 2 == 0, "{x} / {y} is not {q}");
        }
    }
}
