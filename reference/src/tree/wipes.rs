//! Request T-01: what a wipe leaves, what it refuses, and what becomes of the cards of before.

use super::*;
use crate::cmac::Cmac;

const KEY: [u8; 16] = [0x1e; 16];

/// A card of that depth after writes of blocks 1, 0 and 1 again, and its anchor.
fn used(depth: u64) -> (Anchor, Vec<u8>) {
    let mut card = vec![0x4b; layout::card_bytes(depth)];
    let mut anchor = accepted(format(&KEY, depth, &mut card));
    for (index, byte) in [(1, 0x11), (0, 0x22), (1, 0x33)] {
        let written = write(&anchor, &mut card, index, &[byte; 64], &mut [0; 256]);
        anchor = accepted(written.answer);
    }
    (anchor, card)
}

/// The anchor; no refusal will do.
fn accepted(answer: Answer) -> Anchor {
    match answer {
        Answer::Accepted(anchor) => anchor,
        refused => panic!("{refused:?}"),
    }
}

/// The empty card with that nonce in every inner node and in the root, by document 01's layout alone.
fn expected(depth: u64, nonce: u64) -> Vec<u8> {
    let cmac = Cmac::new(&KEY);
    let nonce = nonce.to_be_bytes();
    let mut card = Vec::new();
    for node in 2..2_u32 << depth {
        let label = match node < 1 << depth {
            true => nonce.to_vec(),
            false => vec![0; 64],
        };
        let message = [&label[..], &nonce, &[(node % 2) as u8]].concat();
        card.extend(label);
        card.extend(cmac.tag(&message));
    }
    card
}

/// The numbers that a check answers, and then for each block a read and a write.
fn numbers(anchor: &Anchor, card: &[u8]) -> Vec<u64> {
    let mut all = vec![check(anchor, card)];
    for index in 0..layout::blocks(anchor.depth) {
        all.push(read(anchor, card, index, &mut [0; 64]));
        let mut written = card.to_vec();
        all.push(write(anchor, &mut written, index, &[9; 64], &mut [0; 256]));
    }
    all.iter().map(|counted| counted.answer.number()).collect()
}

/// Every byte of the card and the anchor, after writes and after another wipe.
#[test]
fn leaves_an_empty_card() {
    for depth in 1..=5 {
        let (anchor, mut card) = used(depth);
        assert_eq!(anchor.root, 3 * depth);
        let once = accepted(wipe(&anchor, &mut card).answer);
        let root = 4 * depth;
        let reserved = root;
        let due = Anchor {
            root,
            reserved,
            ..anchor
        };
        assert_eq!(once, due);
        assert_eq!(card, expected(depth, 4 * depth));
        assert!(numbers(&once, &card).iter().all(|&number| number == 0));
        let twice = accepted(wipe(&once, &mut card).answer);
        assert_eq!(twice.root, 5 * depth);
        assert_eq!(card, expected(depth, 5 * depth));
    }
}

/// A format leaves the same at the nonce 0.
#[test]
fn format_at_another_nonce() {
    let mut card = vec![0x77; layout::card_bytes(3)];
    accepted(format(&KEY, 3, &mut card));
    assert_eq!(card, expected(3, 0));
}

/// It looks at no byte of the card: whatever was there, the same is left.
#[test]
fn any_card() {
    let (anchor, used) = used(2);
    for other in [
        vec![0; 368],
        vec![0xff; 368],
        (0..368).map(|at| at as u8).collect(),
    ] {
        let (mut card, mut used) = (other, used.clone());
        assert_eq!(wipe(&anchor, &mut card), wipe(&anchor, &mut used));
        assert_eq!(card, used);
    }
}

/// The tests in their order, 1, 2, 3 and 7: the first that fails answers, and nothing changes.
#[test]
fn refusals_in_order() {
    let last = u64::MAX - 1;
    for (depth, root, length, number) in [
        (0, u64::MAX, 7, 1),
        (17, u64::MAX, 7, 1),
        (2, u64::MAX, 7, 2),
        (2, u64::MAX, 368, 2),
        (2, last, 367, 3),
        (2, last, 369, 3),
        (2, last, 368, 7),
        (2, last - 2, 368, 0),
    ] {
        let key = KEY;
        let reserved = root;
        let anchor = Anchor {
            key,
            depth,
            root,
            reserved,
        };
        let mut card = vec![0x3d; length];
        let answer = wipe(&anchor, &mut card).answer;
        assert_eq!(answer.number(), number, "{anchor:?}, {length}");
        assert_eq!(card == vec![0x3d; length], number != 0);
    }
}

/// A sum of exactly 2^64 - 1 fits; then reads and checks go on, and writes and wipes do not.
#[test]
fn largest_sum_fits() {
    for depth in [1, 3, 5] {
        let anchor = Anchor {
            key: KEY,
            depth,
            root: 7 * depth,
            reserved: u64::MAX - depth,
        };
        let mut card = vec![0; layout::card_bytes(depth)];
        let after = accepted(wipe(&anchor, &mut card).answer);
        assert_eq!([after.root, after.reserved], [u64::MAX; 2]);
        assert_eq!(card, expected(depth, u64::MAX));
        let numbers = numbers(&after, &card);
        assert_eq!(numbers[0], 0);
        assert!(numbers[1..].chunks(2).all(|pair| pair == [0, 7]));
        assert_eq!(wipe(&after, &mut card).answer.number(), 7);
    }
}

/// The new anchor with the card of before, as a cut between the two leaves them: all is refused, until it is wiped again.
#[test]
fn cut_between_anchor_and_card() {
    for depth in 1..=4 {
        let (anchor, old) = used(depth);
        let after = accepted(wipe(&anchor, &mut old.clone()).answer);
        assert!(numbers(&after, &old).iter().all(|&number| number == 8));
        let mut card = old;
        let again = accepted(wipe(&after, &mut card).answer);
        assert!(numbers(&again, &card).iter().all(|&number| number == 0));
    }
}

/// A card of which a part is out: a check is refused, a read too or gives zeros, and a second wipe mends it.
#[test]
fn cut_within_the_card() {
    let (anchor, old) = used(3);
    let mut new = old.clone();
    let after = accepted(wipe(&anchor, &mut new).answer);
    for out in 0..old.len() {
        let mut torn = [&new[..out], &old[out..]].concat();
        assert_eq!(
            check(&after, &torn).answer.number() == 0,
            torn == new,
            "{out} bytes"
        );
        for index in 0..8 {
            let mut buffer = [0x5c; 64];
            let answer = read(&after, &torn, index, &mut buffer).answer;
            let zeros = answer.number() == 0 && buffer == [0; 64];
            assert!(zeros || answer.number() == 8, "{out} bytes, block {index}");
        }
        let again = accepted(wipe(&after, &mut torn).answer);
        assert_eq!(torn, expected(3, again.root));
    }
}

/// After it the card is written and read like a formatted one.
#[test]
fn written_again() {
    let (anchor, mut card) = used(2);
    let wiped = accepted(wipe(&anchor, &mut card).answer);
    let after = accepted(write(&wiped, &mut card, 2, &[8; 64], &mut [0; 32]).answer);
    assert_eq!(after.root, 10);
    let nonces = [1, 2, 3].map(|node| messages::nonce(&after, &card, Node(node)).0);
    assert_eq!(nonces, [10, 8, 9]);
    for (index, byte) in [(0, 0), (1, 0), (2, 8), (3, 0)] {
        let mut buffer = [1; 64];
        assert_eq!(read(&after, &card, index, &mut buffer).answer.number(), 0);
        assert_eq!(buffer, [byte; 64]);
    }
}
