//! The path of a block, and the nodes that each call checks, in its order.

use super::layout;
use super::words::{BlockIndex, Node};

/// From the root, u_0, down to the block's leaf, u_n.
pub fn path(depth: u64, index: BlockIndex) -> Vec<Node> {
    let mut path = vec![layout::leaf(depth, index)];
    while path[0] != Node::ROOT {
        path.insert(0, path[0].parent());
    }
    path
}

/// A read checks u_1 to u_n.
pub fn read_checks(depth: u64, index: BlockIndex) -> Vec<Node> {
    path(depth, index)[1..].to_vec()
}

/// A write checks u_1, v_1, u_2, v_2, .. and at last v_n; not u_n.
pub fn write_checks(depth: u64, index: BlockIndex) -> Vec<Node> {
    let leaf = layout::leaf(depth, index);
    let mut checks = Vec::new();
    for &node in &path(depth, index)[1..] {
        if node != leaf {
            checks.push(node);
        }
        checks.push(node.sibling());
    }
    checks
}

/// A write gives new tags to u_y and v_y, for each y from 1 to n: these nodes in rising number.
pub fn tagged(depth: u64, index: BlockIndex) -> Vec<Node> {
    let mut nodes = Vec::new();
    for &node in &path(depth, index)[1..] {
        nodes.extend([node, node.sibling()]);
    }
    nodes.sort();
    nodes
}

#[cfg(test)]
mod tests {
    use super::*;

    /// Block 5 at depth 3 is node 13.
    #[test]
    fn block_5_of_8() {
        let numbers = |nodes: Vec<Node>| nodes.iter().map(|node| node.0).collect::<Vec<u64>>();
        let index = BlockIndex(5);
        assert_eq!(numbers(path(3, index)), [1, 3, 6, 13]);
        assert_eq!(numbers(read_checks(3, index)), [3, 6, 13]);
        assert_eq!(numbers(write_checks(3, index)), [3, 2, 6, 7, 12]);
        assert_eq!(numbers(tagged(3, index)), [2, 3, 6, 7, 12, 13]);
    }

    /// At depth 1 a write checks the other leaf alone.
    #[test]
    fn depth_1() {
        assert_eq!(write_checks(1, BlockIndex(0)), [Node(3)]);
        assert_eq!(write_checks(1, BlockIndex(1)), [Node(2)]);
    }
}
