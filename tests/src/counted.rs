//! Read, write, plan, check and wipe with the count of AES calls that they carry, made by the reference and through the probe:
//! both leave the same bytes.

use crate::guarded::Guarded;
use bindings::count;
use reference::host;
use reference::tree::{self, Anchor, Counted};

/// What the reference gives, and the probe's count.
pub type Made = (Counted, u64);

/// Stops the test unless the probe, on bytes between guards, left what the reference did.
fn same(what: &str, probed: Guarded, left: &[u8]) {
    let probed = probed.into_part(what);
    assert!(probed == left, "the probe leaves another {what}");
}

/// The anchor as the probe takes it.
fn parts(anchor: &Anchor) -> count::Anchor<'_> {
    (&anchor.key, anchor.depth, anchor.root, anchor.reserved)
}

/// A read into the buffer.
pub fn read(anchor: &Anchor, card: &[u8], index: u64, buffer: &mut [u8]) -> Made {
    let (mut on, mut into) = (Guarded::holding(card), Guarded::holding(buffer));
    let count = count::read(parts(anchor), on.part(), index, into.part());
    let counted = tree::read(anchor, card, index, buffer);
    same("card", on, card);
    same("buffer", into, buffer);
    (counted, count)
}

/// A write of the block.
pub fn write(
    anchor: &Anchor,
    card: &mut [u8],
    index: u64,
    block: &[u8],
    ranges: &mut [u8],
) -> Made {
    let (mut on, mut from) = (Guarded::holding(card), Guarded::holding(block));
    let mut into = Guarded::holding(ranges);
    let (part, changed) = (on.part(), into.part());
    let count = count::write(parts(anchor), part, index, from.part(), changed);
    let counted = tree::write(anchor, card, index, block, ranges);
    same("card", on, card);
    same("block", from, block);
    same("ranges", into, ranges);
    (counted, count)
}

/// A plan of the block.
pub fn plan(
    anchor: &Anchor,
    card: &mut [u8],
    index: u64,
    block: &[u8],
    ranges: &mut [u8],
    plan: &mut [u8],
    messages: &mut [u8],
) -> Made {
    let (mut on, mut from) = (Guarded::holding(card), Guarded::holding(block));
    let (mut into, mut out) = (Guarded::holding(ranges), Guarded::holding(messages));
    let count = count::plan(
        parts(anchor),
        on.part(),
        index,
        from.part(),
        into.part(),
        out.part(),
    );
    let (counted, planned) = tree::plan(anchor, card, index, block, ranges);
    if let Some(planned) = planned {
        host::put_planned(&planned, plan, messages);
    }
    same("card", on, card);
    same("block", from, block);
    same("ranges", into, ranges);
    same("messages", out, messages);
    (counted, count)
}

/// A check.
pub fn check(anchor: &Anchor, card: &[u8]) -> Made {
    let mut on = Guarded::holding(card);
    let count = count::check(parts(anchor), on.part());
    let counted = tree::check(anchor, card);
    same("card", on, card);
    (counted, count)
}

/// A wipe.
pub fn wipe(anchor: &Anchor, card: &mut [u8]) -> Made {
    let mut on = Guarded::holding(card);
    let count = count::wipe(parts(anchor), on.part());
    let counted = tree::wipe(anchor, card);
    same("card", on, card);
    (counted, count)
}
