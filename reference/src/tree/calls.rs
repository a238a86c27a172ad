//! "Calls": format, read, write and check, the wipe of request T-01, plan and put of T-03, and the journalled write and the
//! recovery of T-05. Each tests first, so that a refused call has changed nothing; all but format, put and recovery count the
//! blocks that AES encrypts for them, which a limit keeps at none.

use super::words::{Anchor, Answer, BlockIndex, Counted, Node, Plan, Planned, Refusal};
use super::{journal, layout, limits, messages, paths, ranges};
use crate::cmac::Cmac;

/// Test 8: each of the nodes has its right tag; a refusal names the first that has not.
fn all_right(
    cmac: &Cmac,
    anchor: &Anchor,
    card: &[u8],
    nodes: impl IntoIterator<Item = Node>,
) -> Result<(), Refusal> {
    for node in nodes {
        if !messages::is_right(cmac, anchor, card, node) {
            return Err(Refusal::Wrong(node));
        }
    }
    Ok(())
}

/// A call after its limits: the refusal, or the work under the key, whose subkeys are made once.
fn counted<T>(
    limits: Result<T, Refusal>,
    key: &[u8; 16],
    work: impl FnOnce(&Cmac, T) -> Result<Anchor, Refusal>,
) -> Counted {
    match limits {
        Ok(passed) => {
            let cmac = Cmac::new(key);
            let answer = work(&cmac, passed).into();
            let count = cmac.encrypted();
            Counted { answer, count }
        }
        Err(refusal) => Counted {
            answer: Answer::Refused(refusal),
            count: 0,
        },
    }
}

/// Format: zeroes every block and inner nonce and gives every node its tag under the root nonce 0, which is the reserved one too.
pub fn format(key: &[u8; 16], depth: u64, card: &mut [u8]) -> Answer {
    if let Err(refusal) = limits::format(depth, card) {
        return Answer::Refused(refusal);
    }
    let anchor = Anchor {
        key: *key,
        depth,
        root: 0,
        reserved: 0,
    };
    empty(&Cmac::new(key), &anchor, card);
    Answer::Accepted(anchor)
}

/// Zeroes every block, gives every inner node the root's nonce, and then every node its tag.
fn empty(cmac: &Cmac, anchor: &Anchor, card: &mut [u8]) {
    let depth = anchor.depth;
    for node in layout::nodes(depth) {
        let label = &mut card[layout::label(depth, node)];
        if layout::is_leaf(depth, node) {
            label.fill(0);
        } else {
            label.copy_from_slice(&anchor.root.to_be_bytes());
        }
    }
    for node in layout::nodes(depth) {
        messages::put_tag(cmac, anchor, card, node);
    }
}

/// Read: the buffer gets the block if every tag on its path is right.
pub fn read(anchor: &Anchor, card: &[u8], index: u64, buffer: &mut [u8]) -> Counted {
    let limits = limits::read(anchor, card, index, buffer);
    counted(limits, &anchor.key, |cmac, index| {
        let depth = anchor.depth;
        all_right(cmac, anchor, card, paths::read_checks(depth, index))?;
        let leaf = layout::leaf(depth, index);
        buffer.copy_from_slice(&card[layout::label(depth, leaf)]);
        Ok(*anchor)
    })
}

/// Write: the block goes to the card, the path gets new nonces, path and siblings new tags, and the range buffer what changed.
pub fn write(
    anchor: &Anchor,
    card: &mut [u8],
    index: u64,
    block: &[u8],
    buffer: &mut [u8],
) -> Counted {
    let limits = limits::write(anchor, card, index, block, buffer);
    counted(limits, &anchor.key, |cmac, index| {
        written(cmac, anchor, card, index, block, buffer)
    })
}

/// Journalled write: the write, and the journal gets what recovery needs. Gives the anchor with H raised too, and its tag is
/// made apart from the count.
pub fn write_journalled(
    anchor: &Anchor,
    card: &mut [u8],
    index: u64,
    block: &[u8],
    buffer: &mut [u8],
    journal: &mut [u8],
) -> (Counted, Option<Anchor>) {
    let limits = limits::journalled(anchor, card, index, block, buffer, journal);
    let mut raised = None;
    let counted = counted(limits, &anchor.key, |cmac, index| {
        let after = written(cmac, anchor, card, index, block, buffer)?;
        journal.copy_from_slice(&journal::made(&after, card, index));
        raised = Some(anchor.raised());
        Ok(after)
    });
    (counted, raised)
}

/// Recovery: a journal of this anchor's T with a right tag has its bytes put into its ranges; any other changes nothing.
pub fn recover(anchor: &Anchor, card: &mut [u8], journal: &[u8]) -> Answer {
    let applied = limits::recovery(anchor, card, journal)
        .and_then(|()| journal::apply(anchor, card, journal));
    applied.map(|()| *anchor).into()
}

/// What an accepted write does, if the tags that it checks are right; gives the new anchor.
fn written(
    cmac: &Cmac,
    anchor: &Anchor,
    card: &mut [u8],
    index: BlockIndex,
    block: &[u8],
    buffer: &mut [u8],
) -> Result<Anchor, Refusal> {
    let after = write_without_tags(cmac, anchor, card, index, block, buffer)?;
    for &node in &paths::path(anchor.depth, index)[1..] {
        messages::put_tag(cmac, &after, card, node);
        messages::put_tag(cmac, &after, card, node.sibling());
    }
    Ok(after)
}

/// All of a write but its new tags, if those that it checks are right; gives the new anchor.
fn write_without_tags(
    cmac: &Cmac,
    anchor: &Anchor,
    card: &mut [u8],
    index: BlockIndex,
    block: &[u8],
    buffer: &mut [u8],
) -> Result<Anchor, Refusal> {
    let depth = anchor.depth;
    all_right(cmac, anchor, card, paths::write_checks(depth, index))?;
    let after = anchor.raised().settled();
    let path = paths::path(depth, index);
    for y in 1..depth {
        let nonce = after.root - y;
        let node = path[y as usize];
        card[layout::label(depth, node)].copy_from_slice(&nonce.to_be_bytes());
    }
    card[layout::label(depth, layout::leaf(depth, index))].copy_from_slice(block);
    let changed = ranges::encode(&ranges::changed(depth, index));
    buffer[..changed.len()].copy_from_slice(&changed);
    Ok(after)
}

/// Plan: a write but for its new tags, whose messages are handed out with their nodes; the anchor has H raised, T stays.
pub fn plan(
    anchor: &Anchor,
    card: &mut [u8],
    index: u64,
    block: &[u8],
    buffer: &mut [u8],
) -> (Counted, Option<Planned>) {
    let limits = limits::write(anchor, card, index, block, buffer);
    let mut planned = None;
    let counted = counted(limits, &anchor.key, |cmac, index| {
        let after = write_without_tags(cmac, anchor, card, index, block, buffer)?;
        let plan = Plan {
            index: index.0,
            root: after.root,
            filled: 0,
        };
        let nodes = paths::tagged(anchor.depth, index).into_iter();
        let messages = nodes.map(|node| (node, messages::message(&after, card, node)));
        planned = Some(Planned {
            plan,
            messages: messages.collect(),
        });
        Ok(anchor.raised())
    });
    (counted, planned)
}

/// Put: a tag, whatever it is, goes to a node that the plan waits for. The one that fills the plan brings the new T.
pub fn put_tag(
    anchor: &Anchor,
    plan: &mut Plan,
    card: &mut [u8],
    node: u64,
    tag: &[u8; layout::TAG_BYTES],
) -> Answer {
    let place = match limits::put(anchor, plan, card, Node(node)) {
        Ok(place) => place,
        Err(refusal) => return Answer::Refused(refusal),
    };
    card[layout::tag(anchor.depth, Node(node))].copy_from_slice(tag);
    plan.filled |= 1 << place;
    let full = (0..2 * anchor.depth).all(|place| plan.filled >> place & 1 == 1);
    Answer::Accepted(Anchor {
        root: if full { plan.root } else { anchor.root },
        ..*anchor
    })
}

/// Wipe: an empty card under the same key, whose nonces are all the next reserved one. No tag on the card is looked at.
pub fn wipe(anchor: &Anchor, card: &mut [u8]) -> Counted {
    let limits = limits::wipe(anchor, card);
    counted(limits, &anchor.key, |cmac, ()| {
        let after = anchor.raised().settled();
        empty(cmac, &after, card);
        Ok(after)
    })
}

/// Check: every tag on the card, from node 2 upwards.
pub fn check(anchor: &Anchor, card: &[u8]) -> Counted {
    let limits = limits::check(anchor, card);
    counted(limits, &anchor.key, |cmac, ()| {
        all_right(cmac, anchor, card, layout::nodes(anchor.depth))?;
        Ok(*anchor)
    })
}
