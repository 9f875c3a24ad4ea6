//! Script files: entries, bytes, and how a tree becomes a file under random numbers.

use crate::rng::Rng;
use crate::tree::{Expression, Process, Script};

/// The owner of a session name.
pub const SESSION: u16 = 65535;

pub const MOST_NAMES: usize = 64;
pub const MOST_EXPRESSIONS: usize = 256;
pub const MOST_NODES: usize = 256;

/// A name of 4 bytes.
#[derive(Clone, Copy, Debug, Default, PartialEq, Eq)]
pub struct NameEntry {
    pub kind: u8,
    pub level: u8,
    pub owner: u16,
}

/// An expression or a node, 8 bytes: kind, zero byte, three fields of two bytes. A constant's value
/// takes fields b and c.
#[derive(Clone, Copy, Debug, Default, PartialEq, Eq)]
pub struct Entry {
    pub kind: u8,
    pub zero: u8,
    pub a: u16,
    pub b: u16,
    pub c: u16,
}

impl Entry {
    fn new(kind: u8, a: usize, b: usize, c: usize) -> Entry {
        Entry {
            kind,
            zero: 0,
            a: a as u16,
            b: b as u16,
            c: c as u16,
        }
    }

    pub fn constant(value: i32) -> Entry {
        Entry {
            b: (value as u32 >> 16) as u16,
            c: value as u16,
            ..Entry::default()
        }
    }

    /// The value of a constant.
    pub fn value(&self) -> i32 {
        (u32::from(self.b) << 16 | u32::from(self.c)) as i32
    }

    pub fn register(name: usize) -> Entry {
        Entry::new(1, name, 0, 0)
    }

    fn bytes(&self) -> [u8; 8] {
        let ([a, b], [c, d], [e, f]) = (
            self.a.to_be_bytes(),
            self.b.to_be_bytes(),
            self.c.to_be_bytes(),
        );
        [self.kind, self.zero, a, b, c, d, e, f]
    }

    fn read(bytes: &[u8]) -> Entry {
        let field = |at: usize| u16::from_be_bytes([bytes[at], bytes[at + 1]]);
        Entry {
            kind: bytes[0],
            zero: bytes[1],
            a: field(2),
            b: field(4),
            c: field(6),
        }
    }
}

/// The three lists of a script file.
#[derive(Clone, Debug, Default, PartialEq, Eq)]
pub struct File {
    pub names: Vec<NameEntry>,
    pub expressions: Vec<Entry>,
    pub nodes: Vec<Entry>,
}

impl File {
    /// The file's bytes, with a right tail as long as the offsets fit into two bytes.
    pub fn bytes(&self) -> Vec<u8> {
        let name = |name: &NameEntry| {
            let [high, low] = name.owner.to_be_bytes();
            [name.kind, name.level, high, low]
        };
        let mut bytes: Vec<u8> = self.names.iter().flat_map(name).collect();
        let first = bytes.len();
        bytes.extend(self.expressions.iter().flat_map(Entry::bytes));
        let second = bytes.len();
        bytes.extend(self.nodes.iter().flat_map(Entry::bytes));
        let tail = [first, second, bytes.len(), 0x5354];
        bytes.extend(tail.iter().flat_map(|&word| (word as u16).to_be_bytes()));
        bytes
    }

    /// The lists of a file with a right tail.
    pub fn read(bytes: &[u8]) -> Option<File> {
        let end = bytes.len().checked_sub(8)?;
        let word = |at: usize| usize::from(u16::from_be_bytes([bytes[at], bytes[at + 1]]));
        let (first, second, tail) = (word(end), word(end + 2), word(end + 4));
        if !(first <= second && second <= tail && tail == end && word(end + 6) == 0x5354) {
            return None;
        }
        let name = |entry: &[u8]| NameEntry {
            kind: entry[0],
            level: entry[1],
            owner: u16::from_be_bytes([entry[2], entry[3]]),
        };
        let list = |bytes: &[u8]| bytes.chunks_exact(8).map(Entry::read).collect();
        Some(File {
            names: bytes[..first].chunks_exact(4).map(name).collect(),
            expressions: list(&bytes[first..second]),
            nodes: list(&bytes[second..end]),
        })
    }

    /// The fields of a node that hold children, in order.
    pub fn child_fields(kind: u8) -> &'static [usize] {
        match kind {
            2 => &[2],
            3 => &[1, 2],
            4 | 7 | 8 | 9 => &[1],
            5 | 10 => &[0, 1],
            _ => &[],
        }
    }

    /// The field of a node that holds an expression.
    pub fn expression_field(kind: u8) -> Option<usize> {
        match kind {
            1 | 2 => Some(1),
            3 | 4 => Some(0),
            _ => None,
        }
    }

    /// The fields of an expression that hold operands.
    pub fn operand_fields(kind: u8) -> &'static [usize] {
        match kind {
            2..=7 => &[0, 1],
            8 => &[0],
            _ => &[],
        }
    }
}

impl Entry {
    pub fn field(&self, which: usize) -> usize {
        usize::from([self.a, self.b, self.c][which])
    }

    pub fn field_mut(&mut self, which: usize) -> &mut u16 {
        match which {
            0 => &mut self.a,
            1 => &mut self.b,
            _ => &mut self.c,
        }
    }
}

/// The parts of a tree in pre-order: for each the tree itself and the places of its children.
struct Parts<'t, T> {
    trees: Vec<&'t T>,
    children: Vec<Vec<usize>>,
}

impl<'t, T> Parts<'t, T> {
    fn new() -> Parts<'t, T> {
        Parts {
            trees: vec![],
            children: vec![],
        }
    }

    fn add(&mut self, tree: &'t T, children_of: &impl Fn(&'t T) -> Vec<&'t T>) -> usize {
        let place = self.trees.len();
        self.trees.push(tree);
        self.children.push(vec![]);
        let children = children_of(tree)
            .into_iter()
            .map(|child| self.add(child, children_of))
            .collect();
        self.children[place] = children;
        place
    }

    /// Numbers for all parts, children below parents. The highest number goes to one of the open
    /// parts, at first `roots`, then its children are open too: any linear extension can come out,
    /// so that subtrees interleave. Without `interleaved` each subtree is numbered in one piece.
    fn numbers(&self, roots: Vec<usize>, interleaved: bool, rng: &mut Rng) -> Vec<usize> {
        let mut numbers = vec![0; self.trees.len()];
        let mut open = roots;
        for number in (0..self.trees.len()).rev() {
            let chosen = if interleaved {
                rng.below(open.len())
            } else {
                open.len() - 1
            };
            let part = open.swap_remove(chosen);
            numbers[part] = number;
            open.extend(&self.children[part]);
        }
        numbers
    }
}

fn operands(expression: &Expression) -> Vec<&Expression> {
    match expression {
        Expression::Constant(_) | Expression::Register(_) => vec![],
        Expression::Binary(_, left, right) => vec![left, right],
        Expression::Not(operand) => vec![operand],
    }
}

/// The numbers that a file gives to the names and parts of a script.
struct Numbers {
    names: Vec<usize>,
    expressions: Vec<usize>,
    nodes: Vec<usize>,
}

/// Writes a script under random numbers for names, expressions and nodes.
pub fn write(script: &Script, rng: &mut Rng) -> File {
    let names = rng.permutation(script.names.len());
    write_under(script, names, rng)
}

/// Writes a script under random numbers for expressions and nodes; names keep their numbers.
pub fn write_names_in_order(script: &Script, rng: &mut Rng) -> File {
    let names = (0..script.names.len()).collect();
    write_under(script, names, rng)
}

fn write_under(script: &Script, names: Vec<usize>, rng: &mut Rng) -> File {
    let mut processes = Parts::new();
    processes.add(&script.root, &|process: &Process| process.children());
    let mut expressions = Parts::new();
    let mut own = vec![];
    for process in &processes.trees {
        own.push(process.expression().map(|e| expressions.add(e, &operands)));
    }
    let interleaved = rng.chance(3, 4);
    let roots = own.iter().flatten().copied().collect();
    let numbers = Numbers {
        names,
        nodes: processes.numbers(vec![0], interleaved, rng),
        expressions: expressions.numbers(roots, interleaved, rng),
    };
    let mut file = File {
        names: vec![NameEntry::default(); script.names.len()],
        expressions: vec![Entry::default(); numbers.expressions.len()],
        nodes: vec![Entry::default(); numbers.nodes.len()],
    };
    write_names(&mut file, script, &numbers);
    write_expressions(&mut file, &expressions, &numbers);
    write_nodes(&mut file, &processes, &own, &numbers);
    file
}

fn write_names(file: &mut File, script: &Script, numbers: &Numbers) {
    for (&number, name) in numbers.names.iter().zip(&script.names) {
        file.names[number] = NameEntry {
            kind: u8::from(name.signal),
            level: name.level as u8,
            owner: SESSION,
        };
    }
}

fn write_expressions(file: &mut File, parts: &Parts<Expression>, numbers: &Numbers) {
    for (place, expression) in parts.trees.iter().enumerate() {
        let number = |&operand: &usize| numbers.expressions[operand];
        let fields: Vec<usize> = parts.children[place].iter().map(number).collect();
        file.expressions[numbers.expressions[place]] =
            expression_entry(expression, &fields, &numbers.names);
    }
}

/// Writes the nodes, and into each declared name its owner.
fn write_nodes(file: &mut File, parts: &Parts<Process>, own: &[Option<usize>], numbers: &Numbers) {
    for (place, process) in parts.trees.iter().enumerate() {
        let number = numbers.nodes[place];
        let child = |&child: &usize| numbers.nodes[child];
        let children: Vec<usize> = parts.children[place].iter().map(child).collect();
        let e = own[place].map_or(0, |place| numbers.expressions[place]);
        file.nodes[number] = node_entry(process, e, &children, &numbers.names);
        if let Process::Let(name, ..) | Process::Local(name, _) = process {
            file.names[numbers.names[*name]].owner = number as u16;
        }
    }
}

fn expression_entry(expression: &Expression, fields: &[usize], names: &[usize]) -> Entry {
    match expression {
        Expression::Constant(value) => Entry::constant(*value),
        Expression::Register(name) => Entry::register(names[*name]),
        Expression::Binary(operator, ..) => Entry::new(*operator, fields[0], fields[1], 0),
        Expression::Not(_) => Entry::new(8, fields[0], 0, 0),
    }
}

/// The entry of a node: kinds and fields as 01 lists them.
fn node_entry(process: &Process, e: usize, child: &[usize], names: &[usize]) -> Entry {
    match process {
        Process::Nil => Entry::new(0, 0, 0, 0),
        Process::Assign(name, _) => Entry::new(1, names[*name], e, 0),
        Process::Let(name, ..) => Entry::new(2, names[*name], e, child[0]),
        Process::If(..) => Entry::new(3, e, child[0], child[1]),
        Process::While(..) => Entry::new(4, e, child[0], 0),
        Process::Sequence(..) => Entry::new(5, child[0], child[1], 0),
        Process::Emit(name) => Entry::new(6, names[*name], 0, 0),
        Process::Local(name, _) => Entry::new(7, names[*name], child[0], 0),
        Process::Watching(name, _) => Entry::new(8, names[*name], child[0], 0),
        Process::When(name, _) => Entry::new(9, names[*name], child[0], 0),
        Process::Parallel(..) => Entry::new(10, child[0], child[1], 0),
    }
}
