//! Document 01's table, rows a to k.

use super::*;
use crate::cmac::Cmac;

const KEY: [u8; 16] = [0x3c; 16];

/// A card of that depth, fresh from format, and its anchor.
fn formatted(depth: u64) -> (Anchor, Vec<u8>) {
    let mut card = vec![0xa5; layout::card_bytes(depth)];
    match format(&KEY, depth, &mut card) {
        Answer::Accepted(anchor) => (anchor, card),
        refused => panic!("format: {refused:?}"),
    }
}

/// Writes a block; no answer but the new anchor will do.
fn written(anchor: &Anchor, card: &mut [u8], index: u64) -> Anchor {
    let mut buffer = vec![0; ranges::buffer_bytes(anchor.depth)];
    match write(anchor, card, index, &[0x77; 64], &mut buffer).answer {
        Answer::Accepted(after) => after,
        refused => panic!("write: {refused:?}"),
    }
}

/// The card with the tags of nodes 2 and 3 made anew for another root nonce, and the anchor with it, the reserved one too.
fn moved_to(anchor: &Anchor, card: &mut [u8], root: u64) -> Anchor {
    let reserved = root;
    let moved = Anchor {
        root,
        reserved,
        ..*anchor
    };
    for node in [Node(2), Node(3)] {
        messages::put_tag(&Cmac::new(&KEY), &moved, card, node);
    }
    moved
}

/// The numbers that a check, a read and a write of block 0 answer.
fn numbers(anchor: &Anchor, card: &[u8]) -> [u64; 3] {
    let mut written = card.to_vec();
    let write = write(anchor, &mut written, 0, &[0; 64], &mut [0; 256]);
    let read = read(anchor, card, 0, &mut [0; 64]);
    [check(anchor, card), read, write].map(|counted| counted.answer.number())
}

/// Rows a and b: the card's length.
#[test]
fn rows_a_b() {
    assert_eq!(layout::card_bytes(1), 160);
    assert_eq!(layout::card_bytes(16), 6_815_696);
}

/// Expects the ranges, as the buffer has them after a write.
fn expect_ranges(depth: u64, index: u64, expected: &[(u32, u32)]) {
    let (anchor, mut card) = formatted(depth);
    let mut buffer = vec![0x99; 16 * depth as usize + 3];
    let written = write(&anchor, &mut card, index, &[1; 64], &mut buffer);
    assert_eq!(written.answer.number(), 0);
    let mut bytes = Vec::new();
    for (offset, length) in expected {
        bytes.extend(offset.to_be_bytes());
        bytes.extend(length.to_be_bytes());
    }
    bytes.extend([0x99; 3]);
    assert_eq!(buffer, bytes);
}

/// Rows c, d and e: the ranges of a write.
#[test]
fn rows_c_d_e() {
    expect_ranges(2, 2, &[(8, 16), (24, 24), (208, 80), (352, 16)]);
    let row_d = [(8, 16), (24, 24), (96, 24), (128, 16), (528, 16), (544, 80)];
    expect_ranges(3, 5, &row_d);
    expect_ranges(1, 0, &[(0, 80), (144, 16)]);
}

/// Row f: the nonces after block 5 is written at depth 3; every other one stays 0.
#[test]
fn row_f() {
    let (anchor, mut card) = formatted(3);
    let anchor = written(&anchor, &mut card, 5);
    let nonces: Vec<u64> = (1..8)
        .map(|node| messages::nonce(&anchor, &card, Node(node)).0)
        .collect();
    assert_eq!(nonces, [3, 0, 2, 0, 0, 1, 0]);
}

/// Row g: the nonces after blocks 2 and then 0 are written at depth 2.
#[test]
fn row_g() {
    let (anchor, mut card) = formatted(2);
    let anchor = written(&anchor, &mut card, 2);
    let anchor = written(&anchor, &mut card, 0);
    let nonces = [1, 2, 3].map(|node| messages::nonce(&anchor, &card, Node(node)).0);
    assert_eq!(nonces, [4, 3, 1]);
}

/// Row h: the last root nonce that a write can start from; a read and a check can go on.
#[test]
fn row_h() {
    let (anchor, mut card) = formatted(2);
    let last = moved_to(&anchor, &mut card, u64::MAX - 3);
    assert_eq!(numbers(&last, &card), [0, 0, 0]);
    assert_eq!(written(&last, &mut card, 1).root, u64::MAX - 1);
    let beyond = moved_to(&anchor, &mut card, u64::MAX - 1);
    assert_eq!(numbers(&beyond, &card), [0, 0, 7]);
}

/// A sum of exactly 2^64 - 1 fits.
#[test]
fn largest_sum_fits() {
    for (depth, root) in [(1, u64::MAX - 1), (3, u64::MAX - 3), (5, u64::MAX - 5)] {
        let (anchor, mut card) = formatted(depth);
        let last = moved_to(&anchor, &mut card, root);
        let after = written(&last, &mut card, 0);
        assert_eq!(after.root, u64::MAX);
        assert_eq!(numbers(&after, &card), [0, 0, 7]);
    }
}

/// Row i: a root nonce that is no multiple of the depth.
#[test]
fn row_i() {
    let (anchor, mut card) = formatted(2);
    let between = moved_to(&anchor, &mut card, 3);
    assert_eq!(numbers(&between, &card), [2, 2, 2]);
}

/// Row j: cards of 367, 368 and 369 bytes.
#[test]
fn row_j() {
    let (anchor, mut card) = formatted(2);
    card.push(0);
    for (length, number) in [(367, 3), (368, 0), (369, 3)] {
        assert_eq!(numbers(&anchor, &card[..length]), [number; 3]);
        let mut fresh = card[..length].to_vec();
        assert_eq!(format(&KEY, 2, &mut fresh).number(), number);
    }
}

/// Row k: blocks 3 and 4 of four.
#[test]
fn row_k() {
    let (anchor, card) = formatted(2);
    for (index, number) in [(3, 0), (4, 4)] {
        let read = read(&anchor, &card, index, &mut [0; 64]);
        assert_eq!(read.answer.number(), number);
        let mut copy = card.clone();
        let written = write(&anchor, &mut copy, index, &[0; 64], &mut [0; 32]);
        assert_eq!(written.answer.number(), number);
    }
}
