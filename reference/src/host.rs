//! "Host side": the calls as C sees them, with anchor, plan and messages in bytes and the answer in one number, which leaves the
//! count out.

use crate::tree::layout::TAG_BYTES;
use crate::tree::{self, Anchor, Answer, Plan, Planned};

pub const ANCHOR_BYTES: usize = 40;
pub const PLAN_BYTES: usize = 24;

/// Room for the messages of a plan of any depth: 15 pairs of inner nodes and the leaves of depth 16.
pub const MESSAGES_BYTES: usize = 2 * (15 * 17 + 73);

/// The answer to an anchor, raised or not, a plan, messages or a tag of another length, before every other test.
const LENGTH: u64 = 5;

/// The anchor in its bytes: key, depth (8), root nonce (8), reserved nonce (8). None for another length.
fn anchor_of(bytes: &[u8]) -> Option<Anchor> {
    let bytes = <&[u8; ANCHOR_BYTES]>::try_from(bytes).ok()?;
    let mut anchor = Anchor {
        key: [0; 16],
        depth: number(&bytes[16..24]),
        root: number(&bytes[24..32]),
        reserved: number(&bytes[32..]),
    };
    anchor.key.copy_from_slice(&bytes[..16]);
    Some(anchor)
}

/// The number in big-endian bytes.
fn number(bytes: &[u8]) -> u64 {
    bytes
        .iter()
        .fold(0, |number, &byte| number << 8 | u64::from(byte))
}

/// The plan in its bytes: block number, root nonce, filled places (8 each). None for another length.
fn plan_of(bytes: &[u8]) -> Option<Plan> {
    let bytes = <&[u8; PLAN_BYTES]>::try_from(bytes).ok()?;
    Some(Plan {
        index: number(&bytes[..8]),
        root: number(&bytes[8..16]),
        filled: number(&bytes[16..]),
    })
}

/// The bytes of a plan.
fn plan_bytes(plan: &Plan) -> Vec<u8> {
    [plan.index, plan.root, plan.filled]
        .map(u64::to_be_bytes)
        .concat()
}

/// Puts what an accepted plan hands out into its buffers: the plan, and the messages end to end.
pub fn put_planned(planned: &Planned, plan: &mut [u8], messages: &mut [u8]) {
    plan.copy_from_slice(&plan_bytes(&planned.plan));
    let mut start = 0;
    for (_, message) in &planned.messages {
        messages[start..start + message.len()].copy_from_slice(message);
        start += message.len();
    }
}

/// The bytes of an anchor.
fn anchor_bytes(anchor: &Anchor) -> Vec<u8> {
    let numbers = [anchor.depth, anchor.root, anchor.reserved];
    [&anchor.key[..], &numbers.map(u64::to_be_bytes).concat()].concat()
}

/// Puts the anchor of an accepted call in the place of the one that it was given; gives the answer in one number.
fn settle(answer: &Answer, bytes: &mut [u8]) -> u64 {
    if let Answer::Accepted(anchor) = answer {
        bytes.copy_from_slice(&anchor_bytes(anchor));
    }
    code(answer)
}

/// The answer in one number: the refusal in the low byte and the node above it.
fn code(answer: &Answer) -> u64 {
    answer.number() + 256 * answer.node()
}

/// Format, with key and depth from the anchor.
pub fn pat_format(anchor: &mut [u8], card: &mut [u8]) -> u64 {
    let Some(given) = anchor_of(anchor) else {
        return LENGTH;
    };
    settle(&tree::format(&given.key, given.depth, card), anchor)
}

/// Read.
pub fn pat_read(anchor: &[u8], card: &[u8], index: u64, buffer: &mut [u8]) -> u64 {
    let Some(given) = anchor_of(anchor) else {
        return LENGTH;
    };
    code(&tree::read(&given, card, index, buffer).answer)
}

/// Write.
pub fn pat_write(
    anchor: &mut [u8],
    card: &mut [u8],
    index: u64,
    block: &[u8],
    ranges: &mut [u8],
) -> u64 {
    let Some(given) = anchor_of(anchor) else {
        return LENGTH;
    };
    let written = tree::write(&given, card, index, block, ranges);
    settle(&written.answer, anchor)
}

/// Journalled write.
pub fn pat_write_journalled(
    anchor: &mut [u8],
    raised: &mut [u8],
    card: &mut [u8],
    index: u64,
    block: &[u8],
    ranges: &mut [u8],
    journal: &mut [u8],
) -> u64 {
    let (Some(given), ANCHOR_BYTES) = (anchor_of(anchor), raised.len()) else {
        return LENGTH;
    };
    let (written, first) = tree::write_journalled(&given, card, index, block, ranges, journal);
    if let Some(first) = first {
        raised.copy_from_slice(&anchor_bytes(&first));
    }
    settle(&written.answer, anchor)
}

/// Recovery.
pub fn pat_recover(anchor: &[u8], card: &mut [u8], journal: &[u8]) -> u64 {
    let Some(given) = anchor_of(anchor) else {
        return LENGTH;
    };
    code(&tree::recover(&given, card, journal))
}

/// Plan.
pub fn pat_plan(
    anchor: &mut [u8],
    card: &mut [u8],
    index: u64,
    block: &[u8],
    ranges: &mut [u8],
    plan: &mut [u8],
    messages: &mut [u8],
) -> u64 {
    let (Some(given), PLAN_BYTES, MESSAGES_BYTES) = (anchor_of(anchor), plan.len(), messages.len())
    else {
        return LENGTH;
    };
    let (counted, planned) = tree::plan(&given, card, index, block, ranges);
    if let Some(planned) = planned {
        put_planned(&planned, plan, messages);
    }
    settle(&counted.answer, anchor)
}

/// Put.
pub fn pat_put_tag(
    anchor: &mut [u8],
    plan: &mut [u8],
    card: &mut [u8],
    node: u64,
    tag: &[u8],
) -> u64 {
    let tag = <&[u8; TAG_BYTES]>::try_from(tag);
    let (Some(given), Some(mut left), Ok(tag)) = (anchor_of(anchor), plan_of(plan), tag) else {
        return LENGTH;
    };
    let answer = tree::put_tag(&given, &mut left, card, node, tag);
    plan.copy_from_slice(&plan_bytes(&left));
    settle(&answer, anchor)
}

/// Check.
pub fn pat_check(anchor: &[u8], card: &[u8]) -> u64 {
    let Some(given) = anchor_of(anchor) else {
        return LENGTH;
    };
    code(&tree::check(&given, card).answer)
}

/// Wipe.
pub fn pat_wipe(anchor: &mut [u8], card: &mut [u8]) -> u64 {
    let Some(given) = anchor_of(anchor) else {
        return LENGTH;
    };
    settle(&tree::wipe(&given, card).answer, anchor)
}

#[cfg(test)]
mod tests;
