//! Request T-05's reserved nonce: what takes it, what tests it, and that no lost attempt lends its nonces to the next.

use super::*;

const KEY: [u8; 16] = [0x0d; 16];

/// A card of that depth after a write of block 1, and its anchor.
fn used(depth: u64) -> (Anchor, Vec<u8>) {
    let mut card = vec![0x35; layout::card_bytes(depth)];
    let anchor = accepted(format(&KEY, depth, &mut card));
    let answer = write(&anchor, &mut card, 1, &[1; 64], &mut [0; 256]).answer;
    (accepted(answer), card)
}

/// The anchor; no refusal will do.
fn accepted(answer: Answer) -> Anchor {
    match answer {
        Answer::Accepted(anchor) => anchor,
        refused => panic!("{refused:?}"),
    }
}

/// The nonces of nodes 1, 3 and 6, the path above block 5 at depth 3.
fn path(anchor: &Anchor, card: &[u8]) -> [u64; 3] {
    [1, 3, 6].map(|node| messages::nonce(anchor, card, Node(node)).0)
}

/// Format sets both to 0. From T = 3 and H = 12, depth 3: a write and a wipe take 15 and below, a plan 15 with T as it was.
#[test]
fn nonces_from_the_reserved_one() {
    let (anchor, card) = used(3);
    assert_eq!([anchor.root, anchor.reserved], [3, 3]);
    let lost = Anchor {
        reserved: 12,
        ..anchor
    };
    let due = Anchor {
        root: 15,
        reserved: 15,
        ..anchor
    };
    let (mut written, mut wiped, mut planned) = (card.clone(), card.clone(), card.clone());
    let after = write(&lost, &mut written, 5, &[2; 64], &mut [0; 48]).answer;
    assert_eq!(accepted(after), due);
    assert_eq!(path(&due, &written), [15, 14, 13]);
    assert_eq!(accepted(check(&due, &written).answer), due);
    assert_eq!(accepted(wipe(&lost, &mut wiped).answer), due);
    assert_eq!(path(&due, &wiped), [15, 15, 15]);
    let (counted, made) = plan(&lost, &mut planned, 5, &[2; 64], &mut [0; 48]);
    let raised = accepted(counted.answer);
    assert_eq!(raised, Anchor { root: 3, ..due });
    assert_eq!(made.expect("a plan").plan.root, 15);
    assert_eq!(path(&due, &planned), path(&due, &written));
}

/// The last put takes T from the plan and leaves H, whatever the two are.
#[test]
fn puts_leave_the_reserved_nonce() {
    let (anchor, mut card) = used(1);
    let given = Anchor {
        reserved: 9,
        ..anchor
    };
    let (index, root) = (0, 4);
    let mut plan = Plan {
        index,
        root,
        filled: 0,
    };
    let first = accepted(put_tag(&given, &mut plan, &mut card, 3, &[0; 16]));
    assert_eq!(first, given);
    let last = accepted(put_tag(&given, &mut plan, &mut card, 2, &[0; 16]));
    assert_eq!(last, Anchor { root: 4, ..given });
}

/// What read, check, write, journalled write, plan, wipe, put and recovery answer.
fn numbers(anchor: &Anchor, card: &[u8]) -> [u64; 8] {
    let depth = anchor.depth;
    let [mut a, mut b, mut c, mut d, mut e, mut f] = [(); 6].map(|()| card.to_vec());
    let mut journal = vec![0x11; journal::bytes(depth)];
    let (block, mut ranges) = ([4; 64], [0; 256]);
    let mut plan = Plan {
        index: 0,
        root: 0,
        filled: 0,
    };
    let recovered = recover(anchor, &mut f, &journal);
    [
        read(anchor, card, 0, &mut [0; 64]).answer,
        check(anchor, card).answer,
        write(anchor, &mut a, 0, &block, &mut ranges).answer,
        write_journalled(anchor, &mut b, 0, &block, &mut ranges, &mut journal)
            .0
            .answer,
        super::plan(anchor, &mut c, 0, &block, &mut ranges).0.answer,
        wipe(anchor, &mut d).answer,
        put_tag(anchor, &mut plan, &mut e, 2, &[0; 16]),
        recovered,
    ]
    .map(|answer| answer.number())
}

/// Test 2 looks at both nonces and at their order, test 7 at the reserved one alone.
#[test]
fn limits() {
    for depth in [1, 2, 3, 5, 16] {
        let (anchor, card) = used(depth);
        let with = |reserved| {
            let anchor = Anchor { reserved, ..anchor };
            numbers(&anchor, &card)
        };
        assert_eq!(with(depth), [0; 8]);
        assert_eq!(with(depth * 5), [0; 8]);
        assert_eq!(with(0), [2; 8]);
        let last = u64::MAX / depth * depth;
        assert_eq!(with(last), [0, 0, 7, 7, 7, 7, 0, 0]);
        assert_eq!(with(last - depth), [0; 8]);
        if depth > 1 {
            assert_eq!(with(depth + 1), [2; 8]);
            assert_eq!(with(2 * depth - 1), [2; 8]);
            assert_eq!(with(last - 1), [2; 8]);
        }
    }
}

/// Twice the same write from the same card, the first one lost: no message is tagged by both.
#[test]
fn lost_messages_stay_lost() {
    for depth in 1..=6 {
        let (anchor, card) = used(depth);
        let of = |anchor: &Anchor| {
            let (counted, made) = plan(anchor, &mut card.clone(), 1, &[6; 64], &mut [0; 256]);
            (accepted(counted.answer), made.expect("a plan").messages)
        };
        let (raised, first) = of(&anchor);
        let (_, second) = of(&raised);
        assert!(first
            .iter()
            .all(|(_, message)| second.iter().all(|(_, other)| message != other)));
    }
}
