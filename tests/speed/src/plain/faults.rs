//! Refusals 6 to 9: entries that are wrong by themselves, and parts that are not used exactly once.

use super::expression::Expression;
use super::layout::{fields, Lists, MAX_EXPRESSIONS};
use super::script::{Name, Node, Script, SESSION};
use super::{refusal, Refusal};

/// Refusal 6.
pub fn names(lists: &Lists, levels: usize) -> Result<Vec<Name>, Refusal> {
    let decode = |(x, &[kind, level, high, low]): (usize, &[u8; 4])| {
        let owner = u16::from_be_bytes([high, low]);
        let declaration = if kind == 0 { 2 } else { 7 };
        let is_right = kind <= 1
            && (level as usize) < levels
            && (owner == SESSION || declares(lists, owner, declaration, x));
        is_right
            .then_some(Name {
                signal: kind == 1,
                level,
                owner,
            })
            .ok_or(refusal(6, x))
    };
    lists.names.iter().enumerate().map(decode).collect()
}

fn declares(lists: &Lists, owner: u16, kind: u8, x: usize) -> bool {
    let node = lists.nodes.get(owner as usize);
    node.is_some_and(|node| node[0] == kind && fields(node)[0] as usize == x)
}

/// Refusal 7.
pub fn expressions(lists: &Lists, names: &[Name]) -> Result<Vec<Expression>, Refusal> {
    let is_right = |e: usize, expression: &Expression| match *expression {
        Expression::Register(x) => is_kind(names, x, false),
        _ => expression.operands().all(|operand| operand < e),
    };
    let decode = |(e, entry)| {
        let expression = Expression::decode(entry).filter(|expression| is_right(e, expression));
        expression.ok_or(refusal(7, e))
    };
    lists.expressions.iter().enumerate().map(decode).collect()
}

/// Refusal 8.
pub fn nodes(lists: &Lists, names: &[Name]) -> Result<Vec<Node>, Refusal> {
    let decode = |(k, entry)| {
        let node = Node::decode(entry).filter(|node| {
            names_are_right(names, k, node)
                && node.children().all(|child| child < k)
                && node
                    .expression()
                    .is_none_or(|e| e < lists.expressions.len())
        });
        node.ok_or(refusal(8, k))
    };
    lists.nodes.iter().enumerate().map(decode).collect()
}

fn names_are_right(names: &[Name], k: usize, node: &Node) -> bool {
    let declared =
        |x: u16, signal| is_kind(names, x, signal) && names[x as usize].owner as usize == k;
    match *node {
        Node::Assign { name, .. } => is_kind(names, name, false),
        Node::Let { name, .. } => declared(name, false),
        Node::Local { signal, .. } => declared(signal, true),
        Node::Emit { signal } | Node::Watching { signal, .. } | Node::When { signal, .. } => {
            is_kind(names, signal, true)
        }
        _ => true,
    }
}

fn is_kind(names: &[Name], x: u16, signal: bool) -> bool {
    names
        .get(x as usize)
        .is_some_and(|name| name.signal == signal)
}

/// Refusal 9.
pub fn loose_part(script: &Script) -> Result<(), Refusal> {
    let mut expressions = vec![0u16; script.expressions.len()];
    let mut nodes = vec![0u16; script.nodes.len()];
    for expression in &script.expressions {
        expression
            .operands()
            .for_each(|operand| expressions[operand] += 1);
    }
    for node in &script.nodes {
        node.expression()
            .into_iter()
            .for_each(|e| expressions[e] += 1);
        node.children().for_each(|child| nodes[child] += 1);
    }
    nodes[script.root()] = 1;
    let loose = |uses: &[u16]| uses.iter().position(|&count| count != 1);
    match (loose(&expressions), loose(&nodes)) {
        (Some(e), _) => Err(refusal(9, e)),
        (None, Some(k)) => Err(refusal(9, MAX_EXPRESSIONS + k)),
        (None, None) => Ok(()),
    }
}
