//! Expressions and their values.

use super::layout::fields;

#[derive(Clone, Copy)]
pub enum Operator {
    Add,
    Subtract,
    Multiply,
    Divide,
    Less,
    Equal,
}

/// Registers and operands by their numbers.
#[derive(Clone, Copy)]
pub enum Expression {
    Constant(i32),
    Register(u16),
    Binary(Operator, u16, u16),
    Not(u16),
}

impl Expression {
    /// Nothing where the kind is none, or a byte that must be 0 is not.
    pub fn decode(entry: &[u8; 8]) -> Option<Expression> {
        let [a, b, c] = fields(entry);
        let (expression, zeros) = match entry[0] {
            0 => (Expression::Constant((b as i32) << 16 | c as i32), [a, 0]),
            1 => (Expression::Register(a), [b, c]),
            kind @ 2..=7 => (Expression::Binary(Operator::decode(kind), a, b), [c, 0]),
            8 => (Expression::Not(a), [b, c]),
            _ => return None,
        };
        (entry[1] == 0 && zeros == [0; 2]).then_some(expression)
    }

    pub fn operands(&self) -> impl Iterator<Item = usize> {
        let (first, second) = match *self {
            Expression::Constant(_) | Expression::Register(_) => (None, None),
            Expression::Not(a) => (Some(a), None),
            Expression::Binary(_, a, b) => (Some(a), Some(b)),
        };
        first.into_iter().chain(second).map(usize::from)
    }
}

impl Operator {
    fn decode(kind: u8) -> Operator {
        match kind {
            2 => Operator::Add,
            3 => Operator::Subtract,
            4 => Operator::Multiply,
            5 => Operator::Divide,
            6 => Operator::Less,
            _ => Operator::Equal,
        }
    }

    fn apply(self, a: i32, b: i32) -> i32 {
        match self {
            Operator::Add => a.saturating_add(b),
            Operator::Subtract => a.saturating_sub(b),
            Operator::Multiply => a.saturating_mul(b),
            Operator::Divide if b == 0 => 0,
            Operator::Divide => quotient(a, b),
            Operator::Less => (a < b) as i32,
            Operator::Equal => (a == b) as i32,
        }
    }
}

/// To the nearest whole number, a tie to the even one. The divisor is not 0.
fn quotient(a: i32, b: i32) -> i32 {
    let (m, n) = (a.unsigned_abs(), b.unsigned_abs());
    let (cut, twice) = (m / n, 2 * u64::from(m % n));
    let up = twice + u64::from(cut % 2) > u64::from(n);
    let size = i64::from(cut) + i64::from(up);
    let exact = if (a < 0) == (b < 0) { size } else { -size };
    exact.clamp(i32::MIN.into(), i32::MAX.into()) as i32
}

pub fn value(expressions: &[Expression], values: &[i32], e: u16) -> i32 {
    match expressions[e as usize] {
        Expression::Constant(value) => value,
        Expression::Register(name) => values[name as usize],
        Expression::Not(a) => (value(expressions, values, a) == 0) as i32,
        Expression::Binary(operator, a, b) => {
            let a = value(expressions, values, a);
            let b = value(expressions, values, b);
            operator.apply(a, b)
        }
    }
}
