//! Writes script files from terms. Entries are numbered as they are written:
//! parts of an entry before it, from left to right; the whole process is last.

/// The number of a name.
pub type Name = u16;

/// The names of a file: kind, level and owner of each.
#[derive(Clone, Debug, Default)]
pub struct Names(Vec<(u8, u8, u16)>);

const SESSION: u16 = 65535;

impl Names {
    pub fn new() -> Names {
        Names::default()
    }

    /// A register, of the session unless a let declares it.
    pub fn register(&mut self, level: u8) -> Name {
        self.add(0, level)
    }

    /// A signal, of the session unless a local declares it.
    pub fn signal(&mut self, level: u8) -> Name {
        self.add(1, level)
    }

    fn add(&mut self, kind: u8, level: u8) -> Name {
        self.0.push((kind, level, SESSION));
        self.0.len() as Name - 1
    }
}

#[derive(Clone, Debug)]
pub enum Expression {
    Constant(i32),
    Register(Name),
    /// A kind from 2 to 7 and its operands.
    Two(u8, Box<Expression>, Box<Expression>),
    Not(Box<Expression>),
}

#[derive(Clone, Debug)]
pub enum Process {
    Nil,
    Assign(Name, Expression),
    Let(Name, Expression, Box<Process>),
    If(Expression, Box<Process>, Box<Process>),
    While(Expression, Box<Process>),
    Sequence(Box<Process>, Box<Process>),
    Emit(Name),
    Local(Name, Box<Process>),
    Watching(Name, Box<Process>),
    When(Name, Box<Process>),
    Parallel(Box<Process>, Box<Process>),
}

pub fn constant(value: i32) -> Expression {
    Expression::Constant(value)
}

pub fn read(register: Name) -> Expression {
    Expression::Register(register)
}

fn two(kind: u8, a: Expression, b: Expression) -> Expression {
    Expression::Two(kind, Box::new(a), Box::new(b))
}

pub fn add(a: Expression, b: Expression) -> Expression {
    two(2, a, b)
}

pub fn subtract(a: Expression, b: Expression) -> Expression {
    two(3, a, b)
}

pub fn multiply(a: Expression, b: Expression) -> Expression {
    two(4, a, b)
}

pub fn divide(a: Expression, b: Expression) -> Expression {
    two(5, a, b)
}

pub fn less(a: Expression, b: Expression) -> Expression {
    two(6, a, b)
}

pub fn equal(a: Expression, b: Expression) -> Expression {
    two(7, a, b)
}

pub fn not(a: Expression) -> Expression {
    Expression::Not(Box::new(a))
}

/// x = 0
pub fn is_zero(x: Name) -> Expression {
    equal(read(x), constant(0))
}

/// x ≠ 0
pub fn is_not_zero(x: Name) -> Expression {
    not(is_zero(x))
}

pub fn nil() -> Process {
    Process::Nil
}

pub fn assign(x: Name, e: Expression) -> Process {
    Process::Assign(x, e)
}

/// let x = e in P; x becomes owned by it.
pub fn let_in(x: Name, e: Expression, p: Process) -> Process {
    Process::Let(x, e, Box::new(p))
}

pub fn if_else(e: Expression, p: Process, q: Process) -> Process {
    Process::If(e, Box::new(p), Box::new(q))
}

pub fn while_do(e: Expression, p: Process) -> Process {
    Process::While(e, Box::new(p))
}

pub fn seq(p: Process, q: Process) -> Process {
    Process::Sequence(Box::new(p), Box::new(q))
}

pub fn emit(a: Name) -> Process {
    Process::Emit(a)
}

/// local a in P; a becomes owned by it.
pub fn local(a: Name, p: Process) -> Process {
    Process::Local(a, Box::new(p))
}

/// do P watching a
pub fn watching(p: Process, a: Name) -> Process {
    Process::Watching(a, Box::new(p))
}

pub fn when(a: Name, p: Process) -> Process {
    Process::When(a, Box::new(p))
}

pub fn par(p: Process, q: Process) -> Process {
    Process::Parallel(Box::new(p), Box::new(q))
}

/// Example 2 of the report, with its two local signals:
/// local a in (local b in (emit b; do (when a do nil) watching b))
pub fn pause(a: Name, b: Name) -> Process {
    let abort = watching(when(a, nil()), b);
    local(a, local(b, seq(emit(b), abort)))
}

/// The script file of a process over its names.
pub fn file(names: Names, process: &Process) -> Vec<u8> {
    let mut writer = Writer {
        names,
        expressions: Vec::new(),
        nodes: Vec::new(),
    };
    writer.node(process);
    writer.bytes()
}

struct Writer {
    names: Names,
    expressions: Vec<[u8; 8]>,
    nodes: Vec<[u8; 8]>,
}

/// An entry: kind, zero byte, three fields.
fn entry(kind: u8, a: u16, b: u16, c: u16) -> [u8; 8] {
    let ([a0, a1], [b0, b1], [c0, c1]) = (a.to_be_bytes(), b.to_be_bytes(), c.to_be_bytes());
    [kind, 0, a0, a1, b0, b1, c0, c1]
}

impl Writer {
    fn expression(&mut self, expression: &Expression) -> u16 {
        let written = match expression {
            Expression::Constant(value) => {
                let [v0, v1, v2, v3] = value.to_be_bytes();
                [0, 0, 0, 0, v0, v1, v2, v3]
            }
            Expression::Register(x) => entry(1, *x, 0, 0),
            Expression::Two(kind, a, b) => {
                let (a, b) = (self.expression(a), self.expression(b));
                entry(*kind, a, b, 0)
            }
            Expression::Not(a) => entry(8, self.expression(a), 0, 0),
        };
        self.expressions.push(written);
        self.expressions.len() as u16 - 1
    }

    fn node(&mut self, process: &Process) -> u16 {
        let written = match process {
            Process::Nil => entry(0, 0, 0, 0),
            Process::Assign(x, e) => entry(1, *x, self.expression(e), 0),
            Process::Let(x, e, p) => entry(2, *x, self.expression(e), self.node(p)),
            Process::If(e, p, q) => entry(3, self.expression(e), self.node(p), self.node(q)),
            Process::While(e, p) => entry(4, self.expression(e), self.node(p), 0),
            Process::Sequence(p, q) => entry(5, self.node(p), self.node(q), 0),
            Process::Emit(a) => entry(6, *a, 0, 0),
            Process::Local(a, p) => entry(7, *a, self.node(p), 0),
            Process::Watching(a, p) => entry(8, *a, self.node(p), 0),
            Process::When(a, p) => entry(9, *a, self.node(p), 0),
            Process::Parallel(p, q) => entry(10, self.node(p), self.node(q), 0),
        };
        let number = self.nodes.len() as u16;
        if let Process::Let(name, ..) | Process::Local(name, _) = process {
            self.names.0[*name as usize].2 = number;
        }
        self.nodes.push(written);
        number
    }

    fn bytes(&self) -> Vec<u8> {
        let names = self.names.0.iter().map(|&(kind, level, owner)| {
            let [high, low] = owner.to_be_bytes();
            [kind, level, high, low]
        });
        let names: Vec<[u8; 4]> = names.collect();
        file_of_entries(&names, &self.expressions, &self.nodes)
    }
}

/// The script file of three lists of entries, right or not.
pub fn file_of_entries(names: &[[u8; 4]], expressions: &[[u8; 8]], nodes: &[[u8; 8]]) -> Vec<u8> {
    let mut bytes = names.concat();
    let first = bytes.len() as u16;
    bytes.extend(expressions.concat());
    let second = bytes.len() as u16;
    bytes.extend(nodes.concat());
    let third = bytes.len() as u16;
    for field in [first, second, third, 0x5354] {
        bytes.extend(field.to_be_bytes());
    }
    bytes
}
