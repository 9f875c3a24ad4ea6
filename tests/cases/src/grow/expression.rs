//! Random expressions and values.

use super::Grower;
use crate::rng::Rng;
use crate::tree::{binary, not, Expression, LESS, OPERATORS};

/// Nothing that takes an expression is grown when fewer than these are left.
const SPARE_EXPRESSIONS: usize = 16;

/// The ends of the 32-bit range and their neighbours.
pub const ENDS: [i32; 4] = [i32::MIN, i32::MIN + 1, i32::MAX - 1, i32::MAX];

impl Grower<'_> {
    pub fn has_expressions(&self) -> bool {
        self.expressions >= SPARE_EXPRESSIONS
    }

    /// Counts expressions of the file as used.
    pub fn take(&mut self, count: usize) {
        self.expressions = self.expressions.saturating_sub(count);
    }

    /// An expression over registers at or below `level`, mostly small.
    pub fn expression(&mut self, level: usize) -> Expression {
        let size = match self.rng.below(8) {
            0..=3 => 1,
            4..=6 => 3,
            _ => self.rng.between(2, 9),
        };
        self.take(size);
        match (size, self.rng.below(6)) {
            (3, 0) => edge(self.rng),
            (3, 1 | 2) => self.division(level),
            _ => self.expression_of(level, size),
        }
    }

    /// What a register holds.
    pub fn itself(&mut self, name: usize) -> Expression {
        self.take(1);
        Expression::Register(name)
    }

    /// An expression to be tested: mostly one that reads a register.
    pub fn test(&mut self, level: usize) -> Expression {
        if self.rng.chance(1, 2) {
            return self.expression(level);
        }
        match self.name(false, |lattice, other| lattice.at_most(other, level)) {
            Some(name) => {
                self.take(3);
                let bound = value(self.rng);
                match self.rng.below(3) {
                    0 => binary(
                        LESS,
                        Expression::Register(name),
                        Expression::Constant(bound),
                    ),
                    1 => not(Expression::Register(name)),
                    _ => Expression::Register(name),
                }
            }
            None => self.expression(level),
        }
    }

    /// An expression of exactly `size` entries.
    fn expression_of(&mut self, level: usize, size: usize) -> Expression {
        match size {
            0 | 1 => self.atom(level),
            2 => not(self.atom(level)),
            _ if self.rng.chance(1, 8) => not(self.expression_of(level, size - 1)),
            _ => {
                let (left, right) = self.split(size);
                let operator = OPERATORS[self.rng.below(OPERATORS.len())];
                binary(
                    operator,
                    self.expression_of(level, left),
                    self.expression_of(level, right),
                )
            }
        }
    }

    pub fn atom(&mut self, level: usize) -> Expression {
        if self.rng.chance(1, 3) {
            return Expression::Constant(value(self.rng));
        }
        match self.name(false, |lattice, other| lattice.at_most(other, level)) {
            Some(name) => Expression::Register(name),
            None => Expression::Constant(value(self.rng)),
        }
    }
}

/// An operation at an end of the 32-bit range.
fn edge(rng: &mut Rng) -> Expression {
    let end = ENDS[rng.below(ENDS.len())];
    let small = [-2, -1, 0, 1, 2, i32::MIN, i32::MAX][rng.below(7)];
    let operator = OPERATORS[rng.below(OPERATORS.len())];
    binary(
        operator,
        Expression::Constant(end),
        Expression::Constant(small),
    )
}

/// A 32-bit value: small numbers, the ends of the range, powers of two and their neighbours, any.
pub fn value(rng: &mut Rng) -> i32 {
    match rng.below(10) {
        0..=4 => rng.between(0, 8) as i32 - 3,
        5 => i32::MIN + rng.below(2) as i32,
        6 => i32::MAX - rng.below(2) as i32,
        7 => (1i32 << rng.below(31)) - 1 + rng.below(2) as i32,
        8 => -(1i32 << rng.below(31)) + rng.below(2) as i32,
        _ => rng.next_u64() as i32,
    }
}
