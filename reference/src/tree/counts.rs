//! Document 02: how many blocks AES encrypts for a read, a write, a plan, a check and a wipe.

use super::*;
use crate::cmac::Cmac;

const KEY: [u8; 16] = [0x2f; 16];

/// A card of that depth after a write of block 1, and its anchor.
fn used(depth: u64) -> (Anchor, Vec<u8>) {
    let mut card = vec![0x6e; layout::card_bytes(depth)];
    let Answer::Accepted(anchor) = format(&KEY, depth, &mut card) else {
        panic!("format is refused");
    };
    let written = write(&anchor, &mut card, 1, &[4; 64], &mut [0; 256]);
    match written.answer {
        Answer::Accepted(after) => (after, card),
        refused => panic!("write: {refused:?}"),
    }
}

/// What a read, a write, a plan, a check and a wipe carry, the first three of that block, each on a copy of the card.
fn counts(anchor: &Anchor, card: &[u8], index: u64) -> [u64; 5] {
    let [mut written, mut planned, mut wiped] = [(); 3].map(|()| card.to_vec());
    [
        read(anchor, card, index, &mut [0; 64]),
        write(anchor, &mut written, index, &[5; 64], &mut [0; 256]),
        plan(anchor, &mut planned, index, &[5; 64], &mut [0; 256]).0,
        check(anchor, card),
        wipe(anchor, &mut wiped),
    ]
    .map(|counted| counted.count)
}

/// Accepted: 2n + 4, 8n + 8, 4n + 2, and twice 7 * 2^n - 3.
#[test]
fn accepted() {
    for (depth, expected) in [
        (1, [6, 16, 6, 11, 11]),
        (2, [8, 24, 10, 25, 25]),
        (3, [10, 32, 14, 53, 53]),
        (10, [24, 88, 42, 7_165, 7_165]),
    ] {
        let (anchor, card) = used(depth);
        for index in [0, 1, layout::blocks(depth) - 1] {
            assert_eq!(counts(&anchor, &card, index), expected, "depth {depth}");
        }
    }
}

/// The tags of a plan's messages take what the write takes beyond the plan.
#[test]
fn plan_and_engines() {
    for depth in 1..=8 {
        let (anchor, card) = used(depth);
        for index in 0..layout::blocks(depth) {
            let (counted, planned) =
                plan(&anchor, &mut card.clone(), index, &[5; 64], &mut [0; 256]);
            let engine = Cmac::new(&KEY);
            let before = engine.encrypted();
            for (_, message) in planned.expect("an accepted plan").messages {
                engine.tag(&message);
            }
            let made = engine.encrypted() - before;
            assert_eq!(made, 4 * depth + 6);
            assert_eq!(counted.count + made, 8 * depth + 8);
        }
    }
}

/// At depth 2, the calls of block 2, whose path is 3, 6: the read checks these, write and plan 3, 2 and 7, and the check all of
/// 2 to 7. The subkeys take 1, nodes 2 and 3 take 2 each and the leaves 5.
#[test]
fn up_to_the_first_wrong() {
    for (node, expected) in [
        (2, [8, 5, 5, 3, 25]),
        (3, [3, 3, 3, 5, 25]),
        (4, [8, 24, 10, 10, 25]),
        (5, [8, 24, 10, 15, 25]),
        (6, [8, 24, 10, 20, 25]),
        (7, [8, 10, 10, 25, 25]),
    ] {
        let (anchor, mut card) = used(2);
        card[layout::tag(2, Node(node)).end - 1] ^= 0x80;
        assert_eq!(counts(&anchor, &card, 2), expected, "node {node}");
    }
}

/// What a limit refuses carries 0, also where tags are wrong; a root nonce too near its end does not refuse reads and checks.
#[test]
fn refused_by_limits() {
    let (anchor, card) = used(2);
    let spoiled = vec![0x13; card.len()];
    for card in [card, spoiled] {
        let none = |anchor: Anchor| assert_eq!(counts(&anchor, &card, 0), [0; 5], "{anchor:?}");
        none(Anchor { depth: 0, ..anchor });
        none(Anchor {
            depth: 17,
            ..anchor
        });
        none(Anchor { root: 1, ..anchor });
        none(Anchor {
            reserved: 5,
            ..anchor
        });
        none(Anchor { root: 4, ..anchor });
        assert_eq!(counts(&anchor, &card[1..], 0), [0; 5]);
        assert_eq!(counts(&anchor, &card, 4)[..3], [0; 3]);
        let read = read(&anchor, &card, 0, &mut [0; 63]);
        assert_eq!(read.count, 0);
        for (block, ranges) in [(63, 32), (64, 31)] {
            let (block, mut ranges) = (vec![0; block], vec![0; ranges]);
            let written = write(&anchor, &mut card.clone(), 0, &block, &mut ranges);
            let planned = plan(&anchor, &mut card.clone(), 0, &block, &mut ranges).0;
            assert_eq!([written.count, planned.count], [0; 2]);
        }
        let [root, reserved] = [u64::MAX - 1; 2];
        let beyond = Anchor {
            root,
            reserved,
            ..anchor
        };
        assert_eq!(
            counts(&beyond, &card, 0),
            [3, 0, 0, 3, 0],
            "nodes 2 and 3 have tags for another root nonce"
        );
    }
}
