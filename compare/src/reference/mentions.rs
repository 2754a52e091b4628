//! How often the records of a tree name a symbol row.

use super::tag;
use super::tree::{NodeId, Nodes};

/// For each symbol row, counted anew over the whole tree.
pub fn mentions(nodes: &Nodes, rows: usize) -> Vec<u16> {
    // Place 0 is for records that name none.
    let mut counts = vec![0; rows + 1];
    for node in nodes.preorder(NodeId::PROGRAM) {
        for &at in tag::symbols_at(node.tag) {
            counts[usize::from(node.numbers[at])] += 1;
        }
    }
    counts.remove(0);
    counts
}
