//! Plans in their 24 bytes; and by the rule of C's header the nodes of a plan and where their messages lie.

use crate::cards::number;
use std::ops::Range;

/// The bytes of a plan.
pub fn plan(index: u64, root: u64, filled: u64) -> Vec<u8> {
    [index, root, filled].map(u64::to_be_bytes).concat()
}

/// The block's number in a plan's bytes.
pub fn index(plan: &[u8]) -> u64 {
    number(plan, 0)
}

/// The root nonce in a plan's bytes.
pub fn root(plan: &[u8]) -> u64 {
    number(plan, 8)
}

/// The filled places in a plan's bytes.
pub fn filled(plan: &[u8]) -> u64 {
    number(plan, 16)
}

/// Puts another block number there.
pub fn set_index(plan: &mut [u8], index: u64) {
    plan[..8].copy_from_slice(&index.to_be_bytes());
}

/// Puts other filled places there.
pub fn set_filled(plan: &mut [u8], filled: u64) {
    plan[16..].copy_from_slice(&filled.to_be_bytes());
}

/// The node of a place: the children of each node of the path above the leaf, from the root down, the left one first.
pub fn node(depth: u64, index: u64, place: u64) -> u64 {
    let parent = ((1 << depth) + index) >> (depth - place / 2);
    2 * parent + place % 2
}

/// The nodes of a plan, place after place.
pub fn nodes(depth: u64, index: u64) -> Vec<u64> {
    (0..2 * depth)
        .map(|place| node(depth, index, place))
        .collect()
}

/// Where the message of a place lies: 17 bytes each, and 73 each for the two leaves at the end.
pub fn message(depth: u64, place: u64) -> Range<usize> {
    let leaves = 2 * depth - 2;
    let (start, length) = match place.checked_sub(leaves) {
        None => (17 * place, 17),
        Some(leaf) => (17 * leaves + 73 * leaf, 73),
    };
    start as usize..(start + length) as usize
}

/// How many bytes all of them take.
pub fn messages_bytes(depth: u64) -> usize {
    message(depth, 2 * depth - 1).end
}

#[cfg(test)]
mod tests {
    use super::*;

    /// Depth 3, block 5; and the room that the deepest card needs.
    #[test]
    fn block_5_of_8() {
        assert_eq!(nodes(3, 5), [2, 3, 6, 7, 12, 13]);
        let ends: Vec<usize> = (0..6).map(|place| message(3, place).end).collect();
        assert_eq!(ends, [17, 34, 51, 68, 141, 214]);
        assert_eq!(messages_bytes(16), 656);
    }
}
