//! The tail of a script file, and the three lists that it points at.

use super::{refusal, Refusal};

pub const MAX_NAMES: usize = 64;
pub const MAX_EXPRESSIONS: usize = 256;
pub const MAX_NODES: usize = 256;

pub struct Lists<'a> {
    pub names: &'a [[u8; 4]],
    pub expressions: &'a [[u8; 8]],
    pub nodes: &'a [[u8; 8]],
}

/// The fields a, b, c of an expression or a node.
pub fn fields(entry: &[u8; 8]) -> [u16; 3] {
    [word(entry, 2), word(entry, 4), word(entry, 6)]
}

fn word(bytes: &[u8], at: usize) -> u16 {
    u16::from_be_bytes([bytes[at], bytes[at + 1]])
}

/// Refusals 4 and 5.
pub fn lists(bytes: &[u8]) -> Result<Lists<'_>, Refusal> {
    let lists = split(bytes).ok_or(refusal(4, 0))?;
    let fits = lists.names.len() <= MAX_NAMES
        && lists.expressions.len() <= MAX_EXPRESSIONS
        && (1..=MAX_NODES).contains(&lists.nodes.len());
    if fits {
        Ok(lists)
    } else {
        Err(refusal(5, 0))
    }
}

fn split(bytes: &[u8]) -> Option<Lists<'_>> {
    let (body, tail) = bytes.split_last_chunk::<8>()?;
    let [expressions, nodes, end] = [0, 2, 4].map(|at| word(tail, at) as usize);
    if word(tail, 6) != 0x5354 || end != body.len() || expressions > nodes || nodes > end {
        return None;
    }
    Some(Lists {
        names: whole(&body[..expressions])?,
        expressions: whole(&body[expressions..nodes])?,
        nodes: whole(&body[nodes..])?,
    })
}

fn whole<const SIZE: usize>(bytes: &[u8]) -> Option<&[[u8; SIZE]]> {
    let (entries, rest) = bytes.as_chunks();
    rest.is_empty().then_some(entries)
}
