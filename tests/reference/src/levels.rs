//! Write level and test level (01, 'Write level and test level'): refusal 11.

use crate::book::{Book, Level};
use crate::fault::{Fault, Rules};
use crate::file::{File, NodeEntry};

/// 'W is the meet of what a node may write, T the join of what it tests.'
#[derive(Clone, Copy, Debug)]
pub struct Levels {
    pub write: Level,
    pub test: Level,
}

/// The levels of the entries below the one in hand.
struct Context<'a> {
    rules: Rules,
    book: &'a Book,
    file: &'a File,
    expressions: Vec<Level>,
    nodes: Vec<Levels>,
}

/// The levels of the script, or row 11: 'a need above fails', the first node.
pub fn levels(rules: Rules, book: &Book, file: &File) -> Result<Levels, usize> {
    let nil = Levels {
        write: book.top(),
        test: book.bottom(),
    };
    let mut context = Context {
        rules,
        book,
        file,
        expressions: expression_levels(rules, book, file),
        nodes: vec![nil; file.nodes.len()],
    };
    let mut failed = Vec::new();
    for (k, node) in file.nodes.iter().enumerate() {
        let (levels, need) = context.node(node);
        context.nodes[k] = levels;
        failed.extend((!need).then_some(k));
    }
    let place = match rules.has(Fault::FlowPlaceLast) {
        true => failed.last(),
        false => failed.first(),
    };
    match place {
        Some(&k) => Err(k),
        None => Ok(context.nodes[file.script()]),
    }
}

/// 'An expression's level is the join of its registers' levels, bottom if none.'
fn expression_levels(rules: Rules, book: &Book, file: &File) -> Vec<Level> {
    let mut levels = vec![book.bottom(); file.expressions.len()];
    for (e, entry) in file.expressions.iter().enumerate() {
        let counted = 2 - usize::from(rules.has(Fault::SecondOperandIgnored));
        let operands = entry.operands().into_iter().take(counted).flatten();
        let register = entry.register().map(|x| file.names[x].level as Level);
        let parts = operands.map(|o| levels[o]).chain(register);
        levels[e] = parts.fold(book.bottom(), |joined, level| book.join(joined, level));
    }
    levels
}

impl Context<'_> {
    /// The level of a name.
    fn name(&self, x: u16) -> Level {
        self.file.names[x as usize].level as Level
    }

    /// 'D is the level of its expression or signal.'
    fn tested(&self, node: &NodeEntry) -> Level {
        match node.expression() {
            Some(e) => self.expressions[e],
            None => self.name(node.a),
        }
    }

    /// The levels of a node and whether its own need holds.
    fn node(&self, node: &NodeEntry) -> (Levels, bool) {
        let child = |k: u16| self.nodes[k as usize];
        match node.kind {
            1 => self.assign(node),
            2 => self.let_in(node, child(node.c)),
            3 => self.if_else(node, child(node.b), child(node.c)),
            4 => self.while_do(node, child(node.b)),
            5 => self.sequence(child(node.a), child(node.b)),
            6 => (self.writes(self.name(node.a)), true),
            7 => (child(node.b), true),
            8 | 9 => self.guarded(node, child(node.b)),
            10 => self.parallel(child(node.a), child(node.b)),
            _ => (self.nil(), true),
        }
    }

    /// 'nil: W top, T bottom.'
    fn nil(&self) -> Levels {
        if self.rules.has(Fault::NilWritesBottom) {
            return self.writes(self.book.bottom());
        }
        self.writes(self.book.top())
    }

    /// 'Assign, emit: W the name's level, T bottom.'
    fn writes(&self, write: Level) -> Levels {
        let test = self.book.bottom();
        Levels { write, test }
    }

    /// 'Assign and let need D at or below the name's level.'
    fn flows_to_name(&self, node: &NodeEntry) -> bool {
        self.book.at_or_below(self.tested(node), self.name(node.a))
    }

    fn assign(&self, node: &NodeEntry) -> (Levels, bool) {
        (self.writes(self.name(node.a)), self.flows_to_name(node))
    }

    /// 'let, local: the body's W and T.'
    fn let_in(&self, node: &NodeEntry, body: Levels) -> (Levels, bool) {
        let need = self.flows_to_name(node) || self.rules.has(Fault::LetFlowUnchecked);
        (body, need)
    }

    /// 'if: W meet, T join of both and D; needs D ≤ W.'
    fn if_else(&self, node: &NodeEntry, p: Levels, q: Levels) -> (Levels, bool) {
        let tested = self.tested(node);
        let mut both = self.both(p, q);
        if self.rules.has(Fault::IfJoinsWrites) {
            both.write = self.book.join(p.write, q.write);
        }
        let levels = self.tests(both, tested);
        (levels, self.book.at_or_below(tested, levels.write))
    }

    /// 'When, watching: body's W, T joined with D; needs D ≤ W.'
    fn guarded(&self, node: &NodeEntry, body: Levels) -> (Levels, bool) {
        let tested = self.tested(node);
        let need = self.book.at_or_below(tested, body.write);
        let unchecked = match node.kind {
            8 => self.rules.has(Fault::WatchingFlowUnchecked),
            _ => self.rules.has(Fault::WhenFlowUnchecked),
        };
        (self.tests(body, tested), need || unchecked)
    }

    /// 'while: body's W, T joined with D; needs the joined T ≤ W.'
    fn while_do(&self, node: &NodeEntry, body: Levels) -> (Levels, bool) {
        let tested = self.tested(node);
        let levels = self.tests(body, tested);
        let needed = match self.rules.has(Fault::WhileAgainstConditionOnly) {
            true => tested,
            false => levels.test,
        };
        (levels, self.book.at_or_below(needed, levels.write))
    }

    /// 'sequence: meet, join; needs T of a ≤ W of b.'
    fn sequence(&self, a: Levels, b: Levels) -> (Levels, bool) {
        let need = match self.rules.has(Fault::SequenceReversed) {
            true => self.book.at_or_below(b.test, a.write),
            false => self.book.at_or_below(a.test, b.write),
        };
        (self.both(a, b), need)
    }

    /// 'Parallel: also T of b ≤ W of a.'
    fn parallel(&self, a: Levels, b: Levels) -> (Levels, bool) {
        let forth = self.book.at_or_below(a.test, b.write);
        let back = self.book.at_or_below(b.test, a.write);
        let one_way = self.rules.has(Fault::ParallelOneWay);
        (self.both(a, b), forth && (back || one_way))
    }

    fn both(&self, a: Levels, b: Levels) -> Levels {
        Levels {
            write: self.book.meet(a.write, b.write),
            test: self.book.join(a.test, b.test),
        }
    }

    fn tests(&self, body: Levels, tested: Level) -> Levels {
        Levels {
            write: body.write,
            test: self.book.join(body.test, tested),
        }
    }
}
