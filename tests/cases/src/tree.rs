//! Scripts as trees. Names are numbers into the script's list of names.

/// What a name is. It is owned if a node of the script declares it, and a session name otherwise.
#[derive(Clone, Copy, Debug, PartialEq, Eq)]
pub struct Name {
    pub signal: bool,
    pub level: usize,
}

/// Kinds of expressions in the file: the constant, and the operators of two operands.
pub const CONSTANT: u8 = 0;
pub const OPERATORS: [u8; 6] = [2, 3, 4, 5, 6, 7];
pub const ADD: u8 = 2;
pub const SUBTRACT: u8 = 3;
pub const DIVIDE: u8 = 5;
pub const LESS: u8 = 6;

#[derive(Clone, Debug)]
pub enum Expression {
    Constant(i32),
    Register(usize),
    /// Operator, left and right operand.
    Binary(u8, Box<Expression>, Box<Expression>),
    Not(Box<Expression>),
}

/// The report's processes. A declaration's name is owned and declared nowhere else.
#[derive(Clone, Debug)]
pub enum Process {
    Nil,
    Assign(usize, Expression),
    Let(usize, Expression, Box<Process>),
    If(Expression, Box<Process>, Box<Process>),
    While(Expression, Box<Process>),
    Sequence(Box<Process>, Box<Process>),
    Emit(usize),
    Local(usize, Box<Process>),
    Watching(usize, Box<Process>),
    When(usize, Box<Process>),
    Parallel(Box<Process>, Box<Process>),
}

#[derive(Clone, Debug)]
pub struct Script {
    pub names: Vec<Name>,
    pub root: Process,
}

// Short constructors, so that a pattern reads like the report's programs.

pub fn sequence(first: Process, second: Process) -> Process {
    Process::Sequence(Box::new(first), Box::new(second))
}

pub fn parallel(left: Process, right: Process) -> Process {
    Process::Parallel(Box::new(left), Box::new(right))
}

pub fn when(signal: usize, body: Process) -> Process {
    Process::When(signal, Box::new(body))
}

pub fn watching(signal: usize, body: Process) -> Process {
    Process::Watching(signal, Box::new(body))
}

pub fn local(signal: usize, body: Process) -> Process {
    Process::Local(signal, Box::new(body))
}

pub fn let_in(register: usize, value: Expression, body: Process) -> Process {
    Process::Let(register, value, Box::new(body))
}

pub fn if_else(test: Expression, yes: Process, no: Process) -> Process {
    Process::If(test, Box::new(yes), Box::new(no))
}

pub fn while_do(test: Expression, body: Process) -> Process {
    Process::While(test, Box::new(body))
}

pub fn binary(operator: u8, left: Expression, right: Expression) -> Expression {
    Expression::Binary(operator, Box::new(left), Box::new(right))
}

pub fn not(operand: Expression) -> Expression {
    Expression::Not(Box::new(operand))
}

impl Expression {
    /// The number of expressions in the file.
    pub fn size(&self) -> usize {
        match self {
            Expression::Constant(_) | Expression::Register(_) => 1,
            Expression::Binary(_, left, right) => 1 + left.size() + right.size(),
            Expression::Not(operand) => 1 + operand.size(),
        }
    }
}

impl Process {
    /// The number of nodes in the file.
    pub fn size(&self) -> usize {
        1 + self
            .children()
            .iter()
            .map(|child| child.size())
            .sum::<usize>()
    }

    /// The number of expressions in the file, all nodes together.
    pub fn expressions(&self) -> usize {
        let below: usize = self
            .children()
            .iter()
            .map(|child| child.expressions())
            .sum();
        below + self.expression().map_or(0, Expression::size)
    }

    /// The children in the order of the node's fields.
    pub fn children(&self) -> Vec<&Process> {
        match self {
            Process::Nil | Process::Assign(..) | Process::Emit(_) => vec![],
            Process::Let(_, _, body)
            | Process::While(_, body)
            | Process::Local(_, body)
            | Process::Watching(_, body)
            | Process::When(_, body) => vec![body],
            Process::If(_, first, second)
            | Process::Sequence(first, second)
            | Process::Parallel(first, second) => vec![first, second],
        }
    }

    /// The node's own expression, if its kind has one.
    pub fn expression(&self) -> Option<&Expression> {
        match self {
            Process::Assign(_, e) | Process::Let(_, e, _) | Process::If(e, _, _) => Some(e),
            Process::While(e, _) => Some(e),
            _ => None,
        }
    }
}
