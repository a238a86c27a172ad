//! Anchors in their 40 bytes, and cards altered or made right by hand.

use reference::cmac::Cmac;
use reference::tree::{layout, messages, Anchor, Node};

/// The bytes of an anchor.
pub fn anchor(key: &[u8; 16], depth: u64, root: u64, reserved: u64) -> Vec<u8> {
    let numbers = [depth, root, reserved].map(u64::to_be_bytes).concat();
    [&key[..], &numbers].concat()
}

/// The 8 bytes at that place as a number.
pub fn number(bytes: &[u8], at: usize) -> u64 {
    let eight = bytes[at..at + 8].try_into().expect("eight bytes");
    u64::from_be_bytes(eight)
}

/// The anchor in its 40 bytes.
pub fn parsed(bytes: &[u8]) -> Anchor {
    Anchor {
        key: bytes[..16].try_into().expect("a key of 16 bytes"),
        depth: depth(bytes),
        root: root(bytes),
        reserved: reserved(bytes),
    }
}

/// The depth in an anchor's bytes.
pub fn depth(anchor: &[u8]) -> u64 {
    number(anchor, 16)
}

/// The root nonce in an anchor's bytes.
pub fn root(anchor: &[u8]) -> u64 {
    number(anchor, 24)
}

/// The reserved nonce in an anchor's bytes.
pub fn reserved(anchor: &[u8]) -> u64 {
    number(anchor, 32)
}

/// Puts another depth there.
pub fn set_depth(anchor: &mut [u8], depth: u64) {
    anchor[16..24].copy_from_slice(&depth.to_be_bytes());
}

/// Puts another root nonce there.
pub fn set_root(anchor: &mut [u8], root: u64) {
    anchor[24..32].copy_from_slice(&root.to_be_bytes());
}

/// Puts another reserved nonce there.
pub fn set_reserved(anchor: &mut [u8], reserved: u64) {
    anchor[32..40].copy_from_slice(&reserved.to_be_bytes());
}

/// Puts that nonce there as root and as reserved nonce.
pub fn set_nonces(anchor: &mut [u8], nonce: u64) {
    set_root(anchor, nonce);
    set_reserved(anchor, nonce);
}

/// The anchor with H raised by n, T as it was.
pub fn raised(anchor: &[u8]) -> Vec<u8> {
    let mut raised = anchor.to_vec();
    set_reserved(&mut raised, reserved(anchor) + depth(anchor));
    raised
}

/// The largest root nonce that is a multiple of the depth: no write or wipe fits after it, one fits before.
pub fn last_root(depth: u64) -> u64 {
    u64::MAX / depth * depth
}

/// Makes the tags of nodes 2 and 3, the only ones that the root nonce goes into, right for this anchor.
pub fn restamp(bytes: &[u8], card: &mut [u8]) {
    let anchor = parsed(bytes);
    let cmac = Cmac::new(&anchor.key);
    for node in [Node(2), Node(3)] {
        messages::put_tag(&cmac, &anchor, card, node);
    }
}

/// Copies the whole entry of a node from another card.
pub fn place(card: &mut [u8], other: &[u8], depth: u64, node: Node) {
    let entry = layout::entry(depth, node);
    card[entry.clone()].copy_from_slice(&other[entry]);
}

/// Turns one bit of the tag of a node.
pub fn spoil_tag(card: &mut [u8], depth: u64, node: Node) {
    card[layout::tag(depth, node).start] ^= 1;
}

/// The block of a leaf on the card.
pub fn block(card: &[u8], depth: u64, index: u64) -> &[u8] {
    &card[layout::label(depth, Node((1 << depth) + index))]
}
