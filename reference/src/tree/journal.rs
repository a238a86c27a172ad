//! Request T-05's journal: the new root nonce (8 bytes), the ranges of a write (16n), the new bytes of these ranges in their order
//! (40n + 56), and the CMAC of all that under the anchor's key.

use super::words::{Anchor, BlockIndex, Refusal};
use super::{layout, ranges};
use crate::cmac::Cmac;
use std::ops::Range;

/// The length of a journal.
pub fn bytes(depth: u64) -> usize {
    (56 * depth + 80) as usize
}

/// Where the ranges lie, after the root nonce.
pub fn list(depth: u64) -> Range<usize> {
    layout::NONCE_BYTES..layout::NONCE_BYTES + ranges::buffer_bytes(depth)
}

/// Where the tag lies, behind all that it is made of.
pub fn tag(depth: u64) -> Range<usize> {
    bytes(depth) - layout::TAG_BYTES..bytes(depth)
}

/// The journal of the write of that block which left this anchor and this card.
pub fn made(after: &Anchor, card: &[u8], index: BlockIndex) -> Vec<u8> {
    let changed = ranges::changed(after.depth, index);
    let mut journal = after.root.to_be_bytes().to_vec();
    journal.extend(ranges::encode(&changed));
    for range in changed {
        journal.extend(&card[range]);
    }
    journal.extend(Cmac::new(&after.key).tag(&journal));
    journal
}

/// Whether the journal is to be applied: it has the anchor's root nonce, and its tag is right.
pub fn applies(anchor: &Anchor, journal: &[u8]) -> bool {
    let (message, tag) = journal.split_at(tag(anchor.depth).start);
    message.starts_with(&anchor.root.to_be_bytes()) && Cmac::new(&anchor.key).tag(message) == tag
}

/// The block whose write has exactly these ranges, if there is one: where 80 bytes change there is its leaf.
fn block_of(depth: u64, list: &[u8]) -> Option<BlockIndex> {
    let (start, _) = ranges::decode(list).find(|&(_, length)| length == 80)?;
    let leaves = layout::entry(depth, layout::leaf(depth, BlockIndex(0))).start;
    let index = BlockIndex((start as usize).checked_sub(leaves)? as u64 / 80);
    let there = index.0 < layout::blocks(depth);
    (there && ranges::encode(&ranges::changed(depth, index)) == list).then_some(index)
}

/// Puts the bytes of a journal that is to be applied into their ranges; its ranges have to be those of some block's write.
pub fn apply(anchor: &Anchor, card: &mut [u8], journal: &[u8]) -> Result<(), Refusal> {
    let depth = anchor.depth;
    if !applies(anchor, journal) {
        return Ok(());
    }
    let index = block_of(depth, &journal[list(depth)]).ok_or(Refusal::Journal)?;
    let mut rest = &journal[list(depth).end..];
    for range in ranges::changed(depth, index) {
        let (new, behind) = rest.split_at(range.len());
        card[range].copy_from_slice(new);
        rest = behind;
    }
    Ok(())
}

#[cfg(test)]
mod tests {
    use super::*;

    /// Among all blocks, those whose ranges are the list.
    fn blocks_of(depth: u64, list: &[u8]) -> Vec<u64> {
        let has = |&index: &u64| ranges::encode(&ranges::changed(depth, BlockIndex(index))) == list;
        (0..layout::blocks(depth)).filter(has).collect()
    }

    /// A block is found from its own list and from no list beside it: each byte of each list altered in turn.
    #[test]
    fn found_from_its_own_list() {
        for depth in 1..=4 {
            for index in 0..layout::blocks(depth) {
                let list = ranges::encode(&ranges::changed(depth, BlockIndex(index)));
                assert_eq!(blocks_of(depth, &list), [index]);
                assert_eq!(block_of(depth, &list), Some(BlockIndex(index)));
                for (at, change) in (0..list.len()).flat_map(|at| [(at, 1), (at, 0x80), (at, 0x50)])
                {
                    let mut other = list.clone();
                    other[at] ^= change;
                    let found = block_of(depth, &other).map(|index| index.0);
                    assert_eq!(blocks_of(depth, &other), Vec::from_iter(found));
                }
            }
        }
    }

    /// The lengths of the parts add up, at every depth and for blocks at both ends.
    #[test]
    fn lengths() {
        for depth in 1..=16 {
            for index in [0, layout::blocks(depth) - 1] {
                let changed = ranges::changed(depth, BlockIndex(index));
                let bytes: usize = changed.iter().map(|range| range.len()).sum();
                assert_eq!(bytes as u64, 40 * depth + 56);
                assert_eq!(list(depth).end + bytes, tag(depth).start);
            }
        }
    }
}
