//! The most moves of a run.

use super::script::{Node, Script};

/// One for each node but nil, times one for each parallel and one more; none where there is a while.
pub fn most_moves(script: &Script) -> Option<u32> {
    let (mut nodes, mut parallels) = (0, 0);
    for node in &script.nodes {
        match node {
            Node::While { .. } => return None,
            Node::Nil => continue,
            Node::Parallel { .. } => parallels += 1,
            _ => {}
        }
        nodes += 1;
    }
    Some(nodes * (parallels + 1))
}
