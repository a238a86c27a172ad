//! "Card layout": where each node's entry lies. An entry is the node's label (a nonce, or a leaf's block) and then its tag.

use super::words::{BlockIndex, Node};
use std::ops::Range;

pub const BLOCK_BYTES: usize = 64;
pub const NONCE_BYTES: usize = 8;
pub const TAG_BYTES: usize = 16;

/// How many blocks a card of that depth has.
pub fn blocks(depth: u64) -> u64 {
    1 << depth
}

/// The length of a card of that depth.
pub fn card_bytes(depth: u64) -> usize {
    (104 * blocks(depth) - 48) as usize
}

/// The leaf of a block.
pub fn leaf(depth: u64, index: BlockIndex) -> Node {
    Node(blocks(depth) + index.0)
}

/// The nodes that have an entry, from 2 upwards.
pub fn nodes(depth: u64) -> impl Iterator<Item = Node> {
    (2..2 * blocks(depth)).map(Node)
}

/// Whether the node is a leaf.
pub fn is_leaf(depth: u64, node: Node) -> bool {
    node.0 >= blocks(depth)
}

/// Where the entry starts.
fn offset(depth: u64, node: Node) -> usize {
    let offset = if is_leaf(depth, node) {
        let index = node.0 - blocks(depth);
        24 * (blocks(depth) - 2) + 80 * index
    } else {
        24 * (node.0 - 2)
    };
    offset as usize
}

/// Where the label lies: 8 bytes, for a leaf 64.
pub fn label(depth: u64, node: Node) -> Range<usize> {
    let start = offset(depth, node);
    let length = if is_leaf(depth, node) {
        BLOCK_BYTES
    } else {
        NONCE_BYTES
    };
    start..start + length
}

/// Where the tag lies, after the label.
pub fn tag(depth: u64, node: Node) -> Range<usize> {
    let start = label(depth, node).end;
    start..start + TAG_BYTES
}

/// Where the whole entry lies.
pub fn entry(depth: u64, node: Node) -> Range<usize> {
    label(depth, node).start..tag(depth, node).end
}

#[cfg(test)]
mod tests {
    use super::*;

    /// The entries follow one another and fill the card, at every depth.
    #[test]
    fn entries_fill_the_card() {
        for depth in 1..=16 {
            let mut end = 0;
            for node in nodes(depth) {
                assert_eq!(entry(depth, node).start, end, "depth {depth}, {node:?}");
                end = entry(depth, node).end;
            }
            assert_eq!(end, card_bytes(depth), "depth {depth}");
        }
    }
}
