//! Document 01's plausible errors: what each would break.

use super::*;
use crate::cmac::Cmac;

const KEY: [u8; 16] = [0x51; 16];
const DEPTH: u64 = 3;

/// A card and its anchor after writes of blocks 5, 2 and 5 again.
fn used() -> (Anchor, Vec<u8>) {
    let mut card = vec![0; layout::card_bytes(DEPTH)];
    let Answer::Accepted(mut anchor) = format(&KEY, DEPTH, &mut card) else {
        panic!("format is refused");
    };
    for (index, byte) in [(5, 1), (2, 2), (5, 3)] {
        anchor = written(&anchor, &mut card, index, [byte; 64]);
    }
    (anchor, card)
}

/// Writes a block; no answer but the new anchor will do.
fn written(anchor: &Anchor, card: &mut [u8], index: u64, block: [u8; 64]) -> Anchor {
    match write(anchor, card, index, &block, &mut [0; 48]).answer {
        Answer::Accepted(after) => after,
        refused => panic!("write: {refused:?}"),
    }
}

/// Reads a block; no answer but its bytes will do.
fn block(anchor: &Anchor, card: &[u8], index: u64) -> [u8; 64] {
    let mut buffer = [0; 64];
    let read = read(anchor, card, index, &mut buffer);
    assert_eq!(read.answer, Answer::Accepted(*anchor));
    buffer
}

/// A planted sibling of the leaf is found by the write and gets no fresh tag.
#[test]
fn planted_sibling() {
    let (anchor, mut card) = used();
    let sibling = layout::leaf(DEPTH, BlockIndex(4));
    card[layout::label(DEPTH, sibling)].fill(0x66);
    let before = card.clone();
    let mut buffer = [0x99; 48];
    let written = write(&anchor, &mut card, 5, &[9; 64], &mut buffer);
    assert_eq!(written.answer, Answer::Refused(Refusal::Wrong(sibling)));
    assert_eq!((card, buffer), (before, [0x99; 48]));
}

/// A sibling keeps its nonce, and its children stay readable.
#[test]
fn sibling_keeps_its_nonce() {
    let (anchor, mut card) = used();
    let siblings = [Node(2), Node(7)];
    let before = siblings.map(|node| messages::nonce(&anchor, &card, node));
    let after = written(&anchor, &mut card, 5, [9; 64]);
    let nonces = siblings.map(|node| messages::nonce(&after, &card, node));
    assert_eq!(nonces, before);
    let bytes = [0, 0, 2, 0, 0, 9, 0, 0];
    for (index, byte) in (0..).zip(bytes) {
        assert_eq!(block(&after, &card, index), [byte; 64]);
    }
    assert_eq!(check(&after, &card).answer, Answer::Accepted(after));
}

/// A tag is made with the parent's new nonce: node 3's with T = 12, node 6's with 11, the leaves' with 10.
#[test]
fn tags_with_new_nonces() {
    let (anchor, mut card) = used();
    assert_eq!(anchor.root, 9);
    written(&anchor, &mut card, 5, [9; 64]);
    let cmac = Cmac::new(&KEY);
    let expect = |node: u64, label: &[u8], parent: u64, side: u8| {
        let message = [label, &parent.to_be_bytes(), &[side]].concat();
        let tag = &card[layout::tag(DEPTH, Node(node))];
        assert_eq!(tag, cmac.tag(&message), "node {node}");
    };
    expect(3, &11_u64.to_be_bytes(), 12, 1);
    expect(2, &5_u64.to_be_bytes(), 12, 0);
    expect(6, &10_u64.to_be_bytes(), 11, 0);
    expect(7, &0_u64.to_be_bytes(), 11, 1);
    expect(13, &[9; 64], 10, 1);
    expect(12, &[0; 64], 10, 0);
}

/// A block equal to the old one is written like any other: T and the card move on.
#[test]
fn equal_block() {
    let (anchor, mut card) = used();
    let before = card.clone();
    let after = written(&anchor, &mut card, 5, [3; 64]);
    assert_eq!(after.root, anchor.root + DEPTH);
    assert_eq!(read(&after, &before, 5, &mut [0; 64]).answer.number(), 8);
    assert_eq!(block(&after, &card, 5), [3; 64]);
}

/// A spoiled block can be replaced, whether its bytes or its tag were hit.
#[test]
fn spoiled_block_is_replaced() {
    let leaf = layout::leaf(DEPTH, BlockIndex(5));
    for at in layout::entry(DEPTH, leaf) {
        let (anchor, mut card) = used();
        card[at] ^= 0x10;
        let refused = Answer::Refused(Refusal::Wrong(leaf));
        assert_eq!(read(&anchor, &card, 5, &mut [0; 64]).answer, refused);
        let after = written(&anchor, &mut card, 5, [9; 64]);
        assert_eq!(block(&after, &card, 5), [9; 64]);
        assert_eq!(check(&after, &card).answer, Answer::Accepted(after));
    }
}

/// A read looks at its path only, a check at every byte.
#[test]
fn every_byte_is_checked() {
    let (anchor, card) = used();
    for at in 0..card.len() {
        let mut spoiled = card.clone();
        spoiled[at] ^= 1;
        assert_eq!(check(&anchor, &spoiled).answer.number(), 8, "byte {at}");
        for index in 0..8 {
            let path = paths::read_checks(DEPTH, BlockIndex(index));
            let hit = path.iter().any(|&u| layout::entry(DEPTH, u).contains(&at));
            let answer = read(&anchor, &spoiled, index, &mut [0; 64]).answer;
            assert_eq!(answer.number() == 8, hit, "byte {at}, block {index}");
        }
    }
}
