//! The script file's lists (01, 'Script file'): refusals 4 and 5.

use crate::fault::{Fault, Rules};
use crate::refusal::{row, Refusal};

const NAME_BYTES: usize = 4;
const PART_BYTES: usize = 8;
const TAIL_BYTES: usize = 8;
const MARK: u16 = 0x5354;
const MOST_NAMES: usize = 64;
const MOST_EXPRESSIONS: usize = 256;
const MOST_NODES: usize = 256;
/// The owner of a session name.
const SESSION: u16 = 65535;

/// A name: 'kind (0 register, 1 signal), level, owner'.
pub struct NameEntry {
    pub kind: u8,
    pub level: u8,
    pub owner: u16,
}

/// An expression: 'kind, zero byte, a, then 4 bytes'.
pub struct ExpressionEntry {
    pub kind: u8,
    pub zero: u8,
    pub a: u16,
    pub last: [u8; 4],
}

/// A node: 'kind, zero byte, fields a, b, c'.
pub struct NodeEntry {
    pub kind: u8,
    pub zero: u8,
    pub a: u16,
    pub b: u16,
    pub c: u16,
}

/// The three lists of a script file.
pub struct File {
    pub names: Vec<NameEntry>,
    pub expressions: Vec<ExpressionEntry>,
    pub nodes: Vec<NodeEntry>,
}

/// The three offsets of the tail.
struct Tail {
    expressions: usize,
    nodes: usize,
    tail: usize,
}

fn two_bytes(bytes: &[u8], at: usize) -> u16 {
    u16::from_be_bytes([bytes[at], bytes[at + 1]])
}

impl NameEntry {
    fn read(bytes: &[u8]) -> NameEntry {
        NameEntry {
            kind: bytes[0],
            level: bytes[1],
            owner: two_bytes(bytes, 2),
        }
    }

    /// 'Owner 65535 makes it a session name; otherwise it is the node that
    /// declares it.'
    pub fn owner(&self) -> Option<usize> {
        (self.owner != SESSION).then_some(self.owner as usize)
    }

    pub fn is_register(&self) -> bool {
        self.kind == 0
    }

    pub fn is_signal(&self) -> bool {
        self.kind == 1
    }
}

impl ExpressionEntry {
    fn read(bytes: &[u8]) -> ExpressionEntry {
        ExpressionEntry {
            kind: bytes[0],
            zero: bytes[1],
            a: two_bytes(bytes, 2),
            last: [bytes[4], bytes[5], bytes[6], bytes[7]],
        }
    }

    /// 'b in bytes 4 and 5'.
    pub fn b(&self) -> u16 {
        two_bytes(&self.last, 0)
    }

    pub fn after_b(&self) -> u16 {
        two_bytes(&self.last, 2)
    }

    /// A constant is 'signed 32-bit in the last four'.
    pub fn constant(&self) -> i32 {
        i32::from_be_bytes(self.last)
    }
}

impl NodeEntry {
    fn read(bytes: &[u8]) -> NodeEntry {
        NodeEntry {
            kind: bytes[0],
            zero: bytes[1],
            a: two_bytes(bytes, 2),
            b: two_bytes(bytes, 4),
            c: two_bytes(bytes, 6),
        }
    }
}

/// 'A tail of 8 bytes that points back: offset of the expressions, of the
/// nodes, of the tail itself, and hexadecimal 5354.'
fn tail(rules: Rules, bytes: &[u8]) -> Option<Tail> {
    let place = bytes.len().checked_sub(TAIL_BYTES)?;
    let tail = Tail {
        expressions: two_bytes(bytes, place) as usize,
        nodes: two_bytes(bytes, place + 2) as usize,
        tail: two_bytes(bytes, place + 4) as usize,
    };
    let marked = two_bytes(bytes, place + 6) == MARK;
    let ascend = tail.expressions <= tail.nodes && tail.nodes <= tail.tail;
    let whole = ascend && whole_entries(&tail);
    let right = marked && ascend && tail.tail == place && (whole || rules.has(Fault::EntriesCut));
    right.then_some(tail)
}

/// 'The lists hold whole entries and touch each other.'
fn whole_entries(tail: &Tail) -> bool {
    tail.expressions.is_multiple_of(NAME_BYTES)
        && (tail.nodes - tail.expressions).is_multiple_of(PART_BYTES)
        && (tail.tail - tail.nodes).is_multiple_of(PART_BYTES)
}

/// Row 5: 'a count outside its limits', place 0. 'At most 64 names, 256
/// expressions, 256 nodes; at least one node.'
fn refusal_5(rules: Rules, file: &File) -> Option<usize> {
    let most_names = MOST_NAMES - usize::from(rules.has(Fault::NamesBelow64));
    let right = file.names.len() <= most_names
        && file.expressions.len() <= MOST_EXPRESSIONS
        && (1..=MOST_NODES).contains(&file.nodes.len());
    (!right).then_some(0)
}

impl File {
    pub fn read(rules: Rules, bytes: &[u8]) -> Result<File, Refusal> {
        // Row 4: 'under 8 bytes, no 5354, or offsets that fall, cut an entry or
        // miss the tail's true place', place 0.
        let Some(tail) = tail(rules, bytes) else {
            return Err(Refusal {
                number: 4,
                place: 0,
            });
        };
        let names = bytes[..tail.expressions].chunks_exact(NAME_BYTES);
        let expressions = bytes[tail.expressions..tail.nodes].chunks_exact(PART_BYTES);
        let nodes = bytes[tail.nodes..tail.tail].chunks_exact(PART_BYTES);
        let file = File {
            names: names.map(NameEntry::read).collect(),
            expressions: expressions.map(ExpressionEntry::read).collect(),
            nodes: nodes.map(NodeEntry::read).collect(),
        };
        row(5, refusal_5(rules, &file))?;
        Ok(file)
    }

    /// 'The last node is the script.'
    pub fn script(&self) -> usize {
        self.nodes.len() - 1
    }
}
