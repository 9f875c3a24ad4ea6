//! Random divisions that need their rule: ties, quotients close to a tie, the ends of the range, zero.

use super::expression::{value, ENDS};
use super::Grower;
use crate::rng::Rng;
use crate::tree::{binary, Expression, DIVIDE};

impl Grower<'_> {
    /// A division of three entries: a register at or below `level` is halved, or constants are divided.
    pub fn division(&mut self, level: usize) -> Expression {
        let (dividend, divisor) = match self.rng.chance(1, 4) {
            true => (self.atom(level), 2 * sign(self.rng)),
            false => {
                let (dividend, divisor) = operands(self.rng);
                (Expression::Constant(dividend), divisor)
            }
        };
        binary(DIVIDE, dividend, Expression::Constant(divisor))
    }
}

fn sign(rng: &mut Rng) -> i32 {
    [-1, 1][rng.below(2)]
}

/// Dividend and divisor.
fn operands(rng: &mut Rng) -> (i32, i32) {
    let (dividend, divisor) = tie(rng);
    match rng.below(10) {
        0..=4 => (dividend, divisor),
        5 | 6 => (dividend.saturating_add(sign(rng)), divisor),
        7 | 8 => at_an_end(rng),
        _ => (value(rng), 0),
    }
}

/// The dividend is an odd number of halves of the divisor.
fn tie(rng: &mut Rng) -> (i32, i32) {
    let half = match rng.below(3) {
        0 => rng.between(1, 5),
        1 => 1 << rng.below(31),
        _ => rng.between(1, 1 << 30),
    } as i32;
    // Twice this and one more is the number of halves: mostly few, and as many as the range holds.
    let most = (i32::MAX / half - 1) / 2;
    let whole = match rng.chance(3, 4) {
        true => most.min(rng.below(4) as i32),
        false => rng.between(0, most as usize) as i32,
    };
    let dividend = (2 * whole + 1) * half * sign(rng);
    let divisor = -2 * half;
    // The lower end of the range has no opposite.
    let opposite = divisor.checked_neg().unwrap_or(divisor);
    (dividend, [divisor, opposite][rng.below(2)])
}

/// Dividend or divisor lies at an end of the range; by such a divisor the quotient is often close to a half.
fn at_an_end(rng: &mut Rng) -> (i32, i32) {
    let end = ENDS[rng.below(ENDS.len())];
    match rng.below(3) {
        0 => (end, value(rng)),
        1 => (value(rng), end),
        _ => ((end / 2 + rng.below(3) as i32 - 1) * sign(rng), end),
    }
}

#[cfg(test)]
mod tests {
    use super::*;

    #[test]
    fn a_tie_lies_half_way() {
        for seed in 0..2000 {
            let (dividend, divisor) = tie(&mut Rng::new(seed));
            let (twice, divisor) = (2 * i64::from(dividend), i64::from(divisor));
            assert_eq!(twice % divisor, 0, "{dividend} / {divisor}");
            assert_ne!(twice / divisor % 2, 0, "{dividend} / {divisor}");
        }
    }
}
