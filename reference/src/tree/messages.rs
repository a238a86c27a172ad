//! "The mark": the message of each node, and its tag.

use super::layout;
use super::words::{Anchor, Node, Nonce};
use crate::cmac::Cmac;

/// The nonce of the root, which the anchor has, or of an inner node, which the card has.
pub fn nonce(anchor: &Anchor, card: &[u8], node: Node) -> Nonce {
    if node == Node::ROOT {
        return Nonce(anchor.root);
    }
    let mut bytes = [0; layout::NONCE_BYTES];
    bytes.copy_from_slice(&card[layout::label(anchor.depth, node)]);
    Nonce(u64::from_be_bytes(bytes))
}

/// The node's nonce or block, its parent's nonce, and its side as one byte: 17 bytes, for a leaf 73.
pub fn message(anchor: &Anchor, card: &[u8], node: Node) -> Vec<u8> {
    let mut message = card[layout::label(anchor.depth, node)].to_vec();
    message.extend(nonce(anchor, card, node.parent()).0.to_be_bytes());
    message.push(node.side());
    message
}

/// The tag that the node has to have: the CMAC of its message, under the anchor's key.
pub fn right_tag(cmac: &Cmac, anchor: &Anchor, card: &[u8], node: Node) -> [u8; layout::TAG_BYTES] {
    cmac.tag(&message(anchor, card, node))
}

/// Whether the tag on the card is that one.
pub fn is_right(cmac: &Cmac, anchor: &Anchor, card: &[u8], node: Node) -> bool {
    card[layout::tag(anchor.depth, node)] == right_tag(cmac, anchor, card, node)
}

/// Gives the node its tag.
pub fn put_tag(cmac: &Cmac, anchor: &Anchor, card: &mut [u8], node: Node) {
    let tag = right_tag(cmac, anchor, card, node);
    card[layout::tag(anchor.depth, node)].copy_from_slice(&tag);
}
