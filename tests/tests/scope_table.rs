//! Document 01's table, rows a to k, through the archive; and rows f, h and i with a reserved nonce above the root nonce, which
//! document 02 adds.

use bindings::pat;
use tests::cards;

const KEY: [u8; 16] = [0x6d; 16];
const BLOCK: [u8; 64] = [0x81; 64];

/// A formatted card of that depth and its anchor.
fn formatted(depth: u64, length: usize) -> (Vec<u8>, Vec<u8>) {
    let (mut anchor, mut card) = (cards::anchor(&KEY, depth, 0, 0), vec![0xa5; length]);
    assert_eq!(pat::format(&mut anchor, &mut card), 0, "depth {depth}");
    (anchor, card)
}

/// What a check, a read of block 0, a write of block 0 and a wipe answer.
fn answers(anchor: &[u8], card: &[u8]) -> [u64; 4] {
    let read = pat::read(anchor, card, 0, &mut [0; 64]);
    let (mut lent, mut written) = (anchor.to_vec(), card.to_vec());
    let write = pat::write(&mut lent, &mut written, 0, &BLOCK, &mut [0; 256]);
    let wipe = pat::wipe(&mut anchor.to_vec(), &mut card.to_vec());
    [pat::check(anchor, card), read, write, wipe]
}

/// The number in 4 or 8 bytes of the card or the range buffer.
fn number(bytes: &[u8]) -> u64 {
    bytes
        .iter()
        .fold(0, |sum, &byte| sum << 8 | u64::from(byte))
}

/// The nonce of an inner node, by document 01's layout.
fn nonce(card: &[u8], node: usize) -> u64 {
    number(&card[24 * (node - 2)..][..8])
}

/// Rows a and b: the one length that a card has.
#[test]
fn rows_a_b() {
    for (depth, length) in [(1, 160), (16, 6_815_696)] {
        let (anchor, mut card) = formatted(depth, length);
        assert_eq!(pat::check(&anchor, &card[..length - 1]), 3);
        card.push(0);
        assert_eq!(pat::check(&anchor, &card), 3);
    }
}

/// Expects these ranges, and the rest of the buffer as it was.
fn expect_ranges(depth: u64, length: usize, index: u64, expected: &[(u64, u64)]) {
    let (mut anchor, mut card) = formatted(depth, length);
    let mut ranges = vec![0x7e; 8 * expected.len() + 9];
    let answer = pat::write(&mut anchor, &mut card, index, &BLOCK, &mut ranges);
    assert_eq!(answer, 0);
    let (pairs, rest) = ranges.split_at(8 * expected.len());
    let pairs: Vec<(u64, u64)> = pairs
        .chunks(8)
        .map(|pair| (number(&pair[..4]), number(&pair[4..])))
        .collect();
    assert_eq!(pairs, expected);
    assert_eq!(rest, [0x7e; 9]);
}

/// Rows c, d and e: the ranges of a write.
#[test]
fn rows_c_d_e() {
    expect_ranges(2, 368, 2, &[(8, 16), (24, 24), (208, 80), (352, 16)]);
    let row_d = [(8, 16), (24, 24), (96, 24), (128, 16), (528, 16), (544, 80)];
    expect_ranges(3, 784, 5, &row_d);
    expect_ranges(1, 160, 0, &[(0, 80), (144, 16)]);
}

/// Row f: the nonces that row d leaves.
#[test]
fn row_f() {
    let (mut anchor, mut card) = formatted(3, 784);
    let answer = pat::write(&mut anchor, &mut card, 5, &BLOCK, &mut [0; 48]);
    assert_eq!(answer, 0);
    let nonces: Vec<u64> = (2..8).map(|node| nonce(&card, node)).collect();
    assert_eq!(nonces, [0, 2, 0, 0, 1, 0]);
    assert_eq!(cards::root(&anchor), 3);
}

/// Row g: the nonces that writes of blocks 2 and 0 leave.
#[test]
fn row_g() {
    let (mut anchor, mut card) = formatted(2, 368);
    for index in [2, 0] {
        let answer = pat::write(&mut anchor, &mut card, index, &BLOCK, &mut [0; 32]);
        assert_eq!(answer, 0);
    }
    assert_eq!([nonce(&card, 2), nonce(&card, 3)], [3, 1]);
    assert_eq!(cards::root(&anchor), 4);
}

/// Row h: the last root nonce that a write or a wipe fits after, and the next.
#[test]
fn row_h() {
    let (mut anchor, mut card) = formatted(2, 368);
    for (root, number) in [(u64::MAX - 3, 0), (u64::MAX - 1, 7)] {
        cards::set_nonces(&mut anchor, root);
        cards::restamp(&anchor, &mut card);
        assert_eq!(answers(&anchor, &card), [0, 0, number, number]);
    }
}

/// Row i: a root nonce that is no multiple of the depth.
#[test]
fn row_i() {
    let (mut anchor, mut card) = formatted(2, 368);
    cards::set_nonces(&mut anchor, 3);
    cards::restamp(&anchor, &mut card);
    assert_eq!(answers(&anchor, &card), [2; 4]);
}

/// Row j: cards of 367, 368 and 369 bytes.
#[test]
fn row_j() {
    let (anchor, mut card) = formatted(2, 368);
    card.push(0);
    for (length, number) in [(367, 3), (368, 0), (369, 3)] {
        assert_eq!(answers(&anchor, &card[..length]), [number; 4]);
        let (mut lent, mut fresh) = (anchor.clone(), card[..length].to_vec());
        assert_eq!(pat::format(&mut lent, &mut fresh), number);
    }
}

/// Row k: blocks 3 and 4 of four.
#[test]
fn row_k() {
    let (anchor, card) = formatted(2, 368);
    for (index, number) in [(3, 0), (4, 4)] {
        assert_eq!(pat::read(&anchor, &card, index, &mut [0; 64]), number);
        let (mut lent, mut written) = (anchor.clone(), card.clone());
        let answer = pat::write(&mut lent, &mut written, index, &BLOCK, &mut [0; 32]);
        assert_eq!(answer, number);
    }
}

/// What a plan, a journalled write, a recovery and a put answer.
fn more_answers(anchor: &[u8], card: &[u8]) -> [u64; 4] {
    let lent = || (anchor.to_vec(), card.to_vec());
    let ((mut one, mut planned), (mut other, mut written)) = (lent(), lent());
    let (mut ranges, mut plan, mut journal) = ([0; 32], [0; 24], [0; 192]);
    let (mut messages, mut raised) = ([0; 656], [0; 40]);
    let (plan, messages) = (&mut plan, &mut messages);
    let planned = pat::plan(
        &mut one,
        &mut planned,
        0,
        &BLOCK,
        &mut ranges,
        plan,
        messages,
    );
    let (raised, journal) = (&mut raised, &mut journal);
    let journalled = pat::write_journalled(
        &mut other,
        raised,
        &mut written,
        0,
        &BLOCK,
        &mut ranges,
        journal,
    );
    let (mut last, mut card) = lent();
    let recovered = pat::recover(anchor, &mut card, journal);
    let put = pat::put_tag(&mut last, &mut [0; 24], &mut card, 2, &[0; 16]);
    [planned, journalled, recovered, put]
}

/// Row f from T = 0 and H = 6: the nonces below 9, and T and H are 9.
#[test]
fn row_f_after_lost_attempts() {
    let (mut anchor, mut card) = formatted(3, 784);
    cards::set_reserved(&mut anchor, 6);
    let answer = pat::write(&mut anchor, &mut card, 5, &BLOCK, &mut [0; 48]);
    assert_eq!(answer, 0);
    let nonces: Vec<u64> = (2..8).map(|node| nonce(&card, node)).collect();
    assert_eq!(nonces, [0, 8, 0, 0, 7, 0]);
    assert_eq!([cards::root(&anchor), cards::reserved(&anchor)], [9, 9]);
    assert_eq!(pat::check(&anchor, &card), 0);
}

/// Row h with T = 0: the reserved nonce alone decides whether a write fits.
#[test]
fn row_h_by_the_reserved_nonce() {
    let (mut anchor, card) = formatted(2, 368);
    for (reserved, number) in [(u64::MAX - 3, 0), (u64::MAX - 1, 7)] {
        cards::set_reserved(&mut anchor, reserved);
        assert_eq!(answers(&anchor, &card), [0, 0, number, number]);
        assert_eq!(more_answers(&anchor, &card), [number, number, 0, 0]);
    }
}

/// Row i with T = 2: a reserved nonce that is no multiple of the depth, or below T.
#[test]
fn row_i_of_the_reserved_nonce() {
    let (mut anchor, mut card) = formatted(2, 368);
    cards::set_nonces(&mut anchor, 2);
    cards::restamp(&anchor, &mut card);
    for (reserved, number) in [(0, 2), (1, 2), (2, 0), (3, 2), (4, 0), (5, 2)] {
        cards::set_reserved(&mut anchor, reserved);
        assert_eq!(answers(&anchor, &card), [number; 4], "{reserved}");
        assert_eq!(more_answers(&anchor, &card), [number; 4], "{reserved}");
    }
}
