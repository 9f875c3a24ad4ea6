//! The entries one by one (01, 'Script file'): refusals 6, 7 and 8.

use crate::fault::{Fault, Rules};
use crate::file::{ExpressionEntry, File, NodeEntry};

/// Row 6: 'kind, level, or owner not a matching declaration of it', the name. There
/// are `levels` levels.
pub fn refusal_6(rules: Rules, levels: usize, file: &File) -> Option<usize> {
    let right = |x: usize| {
        let name = &file.names[x];
        let level = (name.level as usize) < levels;
        name.kind <= 1 && level && owner_is_right(rules, file, x)
    };
    (0..file.names.len()).find(|&x| !right(x))
}

/// A session name, or owned by a let of a register or a local of a signal
/// whose field a is this name. Whether that node is otherwise right is row 8's.
fn owner_is_right(rules: Rules, file: &File, x: usize) -> bool {
    let name = &file.names[x];
    let Some(owner) = name.owner() else {
        return true;
    };
    let Some(node) = file.nodes.get(owner) else {
        return false;
    };
    let declares = if name.is_register() { 2 } else { 7 };
    let this_name = node.a as usize == x || rules.has(Fault::OwnerOfAnotherName);
    node.kind == declares && this_name
}

/// Row 7: 'kind, field, operand', the expression.
pub fn refusal_7(rules: Rules, file: &File) -> Option<usize> {
    (0..file.expressions.len()).find(|&e| !expression_is_right(rules, file, e))
}

fn expression_is_right(rules: Rules, file: &File, e: usize) -> bool {
    let entry = &file.expressions[e];
    let register = |x: u16| is_register(file, x);
    // 'Operands ... have smaller numbers than their parent.'
    let operand = |o: u16| (o as usize) < e;
    let rest = entry.b() == 0 && entry.after_b() == 0;
    let fields = match entry.kind {
        0 => entry.a == 0 || rules.has(Fault::ConstantFieldUnchecked),
        1 => register(entry.a) && rest,
        2..=7 => operand(entry.a) && operand(entry.b()) && entry.after_b() == 0,
        8 => operand(entry.a) && rest,
        _ => false,
    };
    entry.zero == 0 && fields
}

/// Row 8: 'kind, field, child, or declares a name it doesn't own', the node.
pub fn refusal_8(rules: Rules, file: &File) -> Option<usize> {
    (0..file.nodes.len()).find(|&k| !node_is_right(rules, file, k))
}

fn node_is_right(rules: Rules, file: &File, k: usize) -> bool {
    let NodeEntry {
        kind,
        zero,
        a,
        b,
        c,
    } = file.nodes[k];
    let register = |x: u16| is_register(file, x);
    let signal = |x: u16| is_signal(file, x);
    let expression = |e: u16| (e as usize) < file.expressions.len();
    // 'Child nodes have smaller numbers than their parent.'
    let child =
        |n: u16| (n as usize) < k || (n as usize == k && rules.has(Fault::ChildMayBeParent));
    let owned =
        |x: u16| file.names[x as usize].owner() == Some(k) || rules.has(Fault::DeclaresAnyName);
    let unused = |f: u16| f == 0 || rules.has(Fault::UnusedFieldUnchecked);
    let fields = match kind {
        0 => unused(a) && unused(b) && unused(c),
        1 => register(a) && expression(b) && unused(c),
        2 => register(a) && owned(a) && expression(b) && child(c),
        3 => expression(a) && child(b) && child(c),
        4 => expression(a) && child(b) && unused(c),
        5 | 10 => child(a) && child(b) && unused(c),
        6 => signal(a) && unused(b) && unused(c),
        7 => signal(a) && owned(a) && child(b) && unused(c),
        8 | 9 => signal(a) && child(b) && unused(c),
        _ => false,
    };
    (zero == 0 || rules.has(Fault::ZeroByteUnchecked)) && fields
}

fn is_register(file: &File, x: u16) -> bool {
    file.names
        .get(x as usize)
        .is_some_and(|name| name.is_register())
}

fn is_signal(file: &File, x: u16) -> bool {
    file.names
        .get(x as usize)
        .is_some_and(|name| name.is_signal())
}

/// What the fields of an entry that passed rows 7 and 8 refer to.
impl ExpressionEntry {
    pub fn register(&self) -> Option<usize> {
        (self.kind == 1).then_some(self.a as usize)
    }

    pub fn operands(&self) -> [Option<usize>; 2] {
        let (a, b) = (self.a as usize, self.b() as usize);
        match self.kind {
            2..=7 => [Some(a), Some(b)],
            8 => [Some(a), None],
            _ => [None, None],
        }
    }
}

impl NodeEntry {
    pub fn expression(&self) -> Option<usize> {
        match self.kind {
            1 | 2 => Some(self.b as usize),
            3 | 4 => Some(self.a as usize),
            _ => None,
        }
    }

    pub fn children(&self) -> [Option<usize>; 2] {
        let (a, b, c) = (self.a as usize, self.b as usize, self.c as usize);
        match self.kind {
            2 => [Some(c), None],
            3 => [Some(b), Some(c)],
            4 | 7 | 8 | 9 => [Some(b), None],
            5 | 10 => [Some(a), Some(b)],
            _ => [None, None],
        }
    }

    /// The name that the node uses: 'whose own field a doesn't count as a use'
    /// leaves out let and local.
    pub fn used_name(&self) -> Option<usize> {
        matches!(self.kind, 1 | 6 | 8 | 9).then_some(self.a as usize)
    }

    /// Watching and when.
    pub fn is_guard(&self) -> bool {
        matches!(self.kind, 8 | 9)
    }
}
