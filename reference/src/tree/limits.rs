//! "Who brings a call to a halt": the tests 1 to 7, 9 and 10, and for each call those it has, in their order.

use super::words::{Anchor, BlockIndex, Node, Plan, Refusal};
use super::{journal, layout, paths, ranges};

type Test = Result<(), Refusal>;

/// Passes when the limit is kept.
fn holds(kept: bool, refusal: Refusal) -> Test {
    if kept {
        Ok(())
    } else {
        Err(refusal)
    }
}

/// Test 1: the depth is one of 1 to 16.
fn depth(depth: u64) -> Test {
    holds((1..=16).contains(&depth), Refusal::Depth)
}

/// Test 2: root nonce and reserved nonce are multiples of the depth, and the reserved one is not the lower.
fn root_nonce(anchor: &Anchor) -> Test {
    let multiples = [anchor.root, anchor.reserved]
        .iter()
        .all(|nonce| nonce.is_multiple_of(anchor.depth));
    holds(
        multiples && anchor.reserved >= anchor.root,
        Refusal::RootNonce,
    )
}

/// Test 3: the card is as long as its depth wants.
fn card_length(depth: u64, card: &[u8]) -> Test {
    holds(card.len() == layout::card_bytes(depth), Refusal::CardLength)
}

/// Test 4: there is a block of that number.
fn block_index(depth: u64, index: u64) -> Test {
    holds(index < layout::blocks(depth), Refusal::BlockIndex)
}

/// Test 5: the read buffer or the new block has 64 bytes.
fn block_length(block: &[u8]) -> Test {
    holds(block.len() == layout::BLOCK_BYTES, Refusal::BlockLength)
}

/// Test 6: the range buffer has room for every range.
fn ranges_length(depth: u64, buffer: &[u8]) -> Test {
    holds(
        buffer.len() >= ranges::buffer_bytes(depth),
        Refusal::RangesLength,
    )
}

/// Test 7: the next reserved nonce still fits 64 bits.
fn nonces_left(anchor: &Anchor) -> Test {
    holds(
        anchor.depth <= u64::MAX - anchor.reserved,
        Refusal::NoncesUsedUp,
    )
}

/// Test 10, for both calls that have it: the journal is as long as its depth wants.
fn journal_length(depth: u64, journal: &[u8]) -> Test {
    holds(journal.len() == journal::bytes(depth), Refusal::Journal)
}

/// Test 9: the plan waits for a tag of that node; gives the node's place among the plan's.
fn awaited(depth: u64, plan: &Plan, node: Node) -> Result<usize, Refusal> {
    holds(plan.index < layout::blocks(depth), Refusal::NotAwaited)?;
    let nodes = paths::tagged(depth, BlockIndex(plan.index));
    let place = nodes.iter().position(|&one| one == node);
    let place = place.ok_or(Refusal::NotAwaited)?;
    holds(plan.filled >> place & 1 == 0, Refusal::NotAwaited)?;
    Ok(place)
}

/// The limits of a format.
pub fn format(n: u64, card: &[u8]) -> Test {
    depth(n)?;
    card_length(n, card)
}

/// The limits of a check.
pub fn check(anchor: &Anchor, card: &[u8]) -> Test {
    depth(anchor.depth)?;
    root_nonce(anchor)?;
    card_length(anchor.depth, card)
}

/// The limits of a wipe.
pub fn wipe(anchor: &Anchor, card: &[u8]) -> Test {
    depth(anchor.depth)?;
    root_nonce(anchor)?;
    card_length(anchor.depth, card)?;
    nonces_left(anchor)
}

/// The limits of a read; gives the index that passed.
pub fn read(
    anchor: &Anchor,
    card: &[u8],
    index: u64,
    buffer: &[u8],
) -> Result<BlockIndex, Refusal> {
    depth(anchor.depth)?;
    root_nonce(anchor)?;
    card_length(anchor.depth, card)?;
    block_index(anchor.depth, index)?;
    block_length(buffer)?;
    Ok(BlockIndex(index))
}

/// The limits of a put, which checks no tag; gives the place that the tag fills.
pub fn put(anchor: &Anchor, plan: &Plan, card: &[u8], node: Node) -> Result<usize, Refusal> {
    depth(anchor.depth)?;
    root_nonce(anchor)?;
    card_length(anchor.depth, card)?;
    awaited(anchor.depth, plan, node)
}

/// The limits of a write and of a plan; gives the index that passed.
pub fn write(
    anchor: &Anchor,
    card: &[u8],
    index: u64,
    block: &[u8],
    buffer: &[u8],
) -> Result<BlockIndex, Refusal> {
    depth(anchor.depth)?;
    root_nonce(anchor)?;
    card_length(anchor.depth, card)?;
    lent(anchor, index, block, buffer)
}

/// The limits of a journalled write, which tests the journal's length after the card's; gives the index that passed.
pub fn journalled(
    anchor: &Anchor,
    card: &[u8],
    index: u64,
    block: &[u8],
    buffer: &[u8],
    journal: &[u8],
) -> Result<BlockIndex, Refusal> {
    recovery(anchor, card, journal)?;
    lent(anchor, index, block, buffer)
}

/// The limits of a recovery that stand before it looks into the journal.
pub fn recovery(anchor: &Anchor, card: &[u8], journal: &[u8]) -> Test {
    depth(anchor.depth)?;
    root_nonce(anchor)?;
    card_length(anchor.depth, card)?;
    journal_length(anchor.depth, journal)
}

/// The tests 4 to 7, which all writes have in common; gives the index that passed.
fn lent(anchor: &Anchor, index: u64, block: &[u8], buffer: &[u8]) -> Result<BlockIndex, Refusal> {
    block_index(anchor.depth, index)?;
    block_length(block)?;
    ranges_length(anchor.depth, buffer)?;
    nonces_left(anchor)?;
    Ok(BlockIndex(index))
}
