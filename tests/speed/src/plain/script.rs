//! A script file, decoded.

use super::expression::Expression;
use super::layout::{fields, lists};
use super::{faults, reach, Refusal};

pub const SESSION: u16 = 65535;

#[derive(Clone, Copy)]
pub struct Name {
    pub signal: bool,
    pub level: u8,
    pub owner: u16,
}

impl Name {
    pub fn is_session(&self) -> bool {
        self.owner == SESSION
    }
}

/// Names, expressions and nodes by their numbers.
#[derive(Clone, Copy)]
pub enum Node {
    Nil,
    Assign { name: u16, value: u16 },
    Let { name: u16, value: u16, body: u16 },
    If { test: u16, then: u16, other: u16 },
    While { test: u16, body: u16 },
    Sequence { first: u16, second: u16 },
    Emit { signal: u16 },
    Local { signal: u16, body: u16 },
    Watching { signal: u16, body: u16 },
    When { signal: u16, body: u16 },
    Parallel { first: u16, second: u16 },
}

/// How many of the fields a, b, c a node of each kind uses.
const USED_FIELDS: [usize; 11] = [0, 2, 3, 3, 2, 2, 1, 2, 2, 2, 2];

impl Node {
    /// Nothing where the kind is none, or a byte that must be 0 is not.
    pub fn decode(entry: &[u8; 8]) -> Option<Node> {
        let (kind, fields) = (entry[0], fields(entry));
        let used = *USED_FIELDS.get(kind as usize)?;
        let is_right = entry[1] == 0 && fields[used..].iter().all(|&field| field == 0);
        is_right.then(|| Node::of(kind, fields))
    }

    fn of(kind: u8, [a, b, c]: [u16; 3]) -> Node {
        let (name, signal, test, first) = (a, a, a, a);
        let (value, then, second) = (b, b, b);
        match kind {
            0 => Node::Nil,
            1 => Node::Assign { name, value },
            2 => Node::Let {
                name,
                value,
                body: c,
            },
            3 => Node::If {
                test,
                then,
                other: c,
            },
            4 => Node::While { test, body: b },
            5 => Node::Sequence { first, second },
            6 => Node::Emit { signal },
            7 => Node::Local { signal, body: b },
            8 => Node::Watching { signal, body: b },
            9 => Node::When { signal, body: b },
            _ => Node::Parallel { first, second },
        }
    }

    pub fn children(&self) -> impl Iterator<Item = usize> {
        let (first, second) = match *self {
            Node::Nil | Node::Assign { .. } | Node::Emit { .. } => (None, None),
            Node::Let { body, .. }
            | Node::While { body, .. }
            | Node::Local { body, .. }
            | Node::Watching { body, .. }
            | Node::When { body, .. } => (Some(body), None),
            Node::If { then, other, .. } => (Some(then), Some(other)),
            Node::Sequence { first, second } | Node::Parallel { first, second } => {
                (Some(first), Some(second))
            }
        };
        first.into_iter().chain(second).map(usize::from)
    }

    pub fn expression(&self) -> Option<usize> {
        match *self {
            Node::Assign { value, .. } | Node::Let { value, .. } => Some(value as usize),
            Node::If { test, .. } | Node::While { test, .. } => Some(test as usize),
            _ => None,
        }
    }
}

pub struct Script {
    pub names: Vec<Name>,
    pub expressions: Vec<Expression>,
    pub nodes: Vec<Node>,
}

impl Script {
    pub fn root(&self) -> usize {
        self.nodes.len() - 1
    }
}

/// Refusals 4 to 10.
pub fn load(bytes: &[u8], levels: usize) -> Result<Script, Refusal> {
    let lists = lists(bytes)?;
    let names = faults::names(&lists, levels)?;
    let expressions = faults::expressions(&lists, &names)?;
    let nodes = faults::nodes(&lists, &names)?;
    let script = Script {
        names,
        expressions,
        nodes,
    };
    faults::loose_part(&script)?;
    reach::out_of_reach(&script)?;
    Ok(script)
}
