//! Refusal 10: owned names that are used outside the body of their declaration.

use super::expression::Expression;
use super::layout::MAX_EXPRESSIONS;
use super::script::{Node, Script};
use super::{refusal, Refusal};

struct Walk<'a> {
    script: &'a Script,
    /// The smallest expression and the smallest node so far that use a name out of reach.
    expression: Option<usize>,
    node: Option<usize>,
}

/// Walks the tree of a script of which each part is used once, with the set of names in reach.
pub fn out_of_reach(script: &Script) -> Result<(), Refusal> {
    let names = script.names.iter().enumerate();
    let session = names.fold(0, |set, (x, name)| set | (name.is_session() as u64) << x);
    let mut walk = Walk {
        script,
        expression: None,
        node: None,
    };
    walk.node(script.root(), session);
    match (walk.expression, walk.node) {
        (Some(e), _) => Err(refusal(10, e)),
        (None, Some(k)) => Err(refusal(10, MAX_EXPRESSIONS + k)),
        (None, None) => Ok(()),
    }
}

impl Walk<'_> {
    fn node(&mut self, k: usize, reach: u64) {
        let node = self.script.nodes[k];
        if let Some(e) = node.expression() {
            self.expression(e, reach);
        }
        let (used, declared) = match node {
            Node::Assign { name, .. } => (Some(name), None),
            Node::Emit { signal } | Node::Watching { signal, .. } | Node::When { signal, .. } => {
                (Some(signal), None)
            }
            Node::Let { name, .. } => (None, Some(name)),
            Node::Local { signal, .. } => (None, Some(signal)),
            _ => (None, None),
        };
        if used.is_some_and(|x| reach >> x & 1 == 0) {
            self.node = Some(self.node.map_or(k, |least| least.min(k)));
        }
        let inside = declared.map_or(reach, |x| reach | 1 << x);
        node.children().for_each(|child| self.node(child, inside));
    }

    fn expression(&mut self, e: usize, reach: u64) {
        let expression = self.script.expressions[e];
        if matches!(expression, Expression::Register(x) if reach >> x & 1 == 0) {
            self.expression = Some(self.expression.map_or(e, |least| least.min(e)));
        }
        expression
            .operands()
            .for_each(|operand| self.expression(operand, reach));
    }
}
