//! The calls in bytes: what each leaves in the anchor, the plan and the journal, and the lengths that come first.

use super::*;
use crate::cmac::Cmac;

/// An anchor with that depth, root nonce and reserved nonce.
fn with_reserved(depth: u64, root: u64, reserved: u64) -> Vec<u8> {
    let numbers = [depth, root, reserved].map(u64::to_be_bytes).concat();
    [&[0x42; 16][..], &numbers].concat()
}

/// An anchor with that depth, and that nonce as root and reserved nonce.
fn anchor(depth: u64, root: u64) -> Vec<u8> {
    with_reserved(depth, root, root)
}

/// Format sets T and H to 0 whatever they were, and only when accepted.
#[test]
fn format_sets_the_nonces() {
    let mut lent = with_reserved(1, 77, 5);
    assert_eq!(pat_format(&mut lent, &mut [1; 159]), 3);
    assert_eq!(lent, with_reserved(1, 77, 5));
    assert_eq!(pat_format(&mut lent, &mut [1; 160]), 0);
    assert_eq!(lent, anchor(1, 0));
}

/// An accepted write puts the new T and H there, from the old H, and a later refusal names its node.
#[test]
fn write_moves_the_nonces() {
    let (mut lent, mut card) = (anchor(2, 0), [0; 368]);
    assert_eq!(pat_format(&mut lent, &mut card), 0);
    let old = card;
    lent = with_reserved(2, 0, 6);
    let answer = pat_write(&mut lent, &mut card, 2, &[5; 64], &mut [0; 32]);
    assert_eq!(answer, 0);
    assert_eq!(lent, anchor(2, 8));
    assert_eq!(pat_read(&lent, &old, 2, &mut [0; 64]), 8 + 256 * 3);
    assert_eq!(pat_check(&lent, &old), 8 + 256 * 2);
    let mut buffer = [0; 64];
    assert_eq!(pat_read(&lent, &card, 2, &mut buffer), 0);
    assert_eq!(buffer, [5; 64]);
}

/// An accepted wipe puts the new T there, a refused one none, and the card of before is refused.
#[test]
fn wipe_moves_the_root_nonce() {
    let (mut lent, mut card) = (anchor(2, 0), [0; 368]);
    assert_eq!(pat_format(&mut lent, &mut card), 0);
    let old = card;
    assert_eq!(pat_wipe(&mut lent, &mut card[1..]), 3);
    assert_eq!((&lent, card), (&anchor(2, 0), old));
    assert_eq!(pat_wipe(&mut lent, &mut card), 0);
    assert_eq!(lent, anchor(2, 2));
    assert_eq!(pat_check(&lent, &card), 0);
    assert_eq!(pat_check(&lent, &old), 8 + 256 * 2);
}

/// A plan raises H and leaves its bytes and its messages, and no new T; the last put brings that, and each fills its place.
#[test]
fn puts_fill_the_plan() {
    let (mut lent, mut card, mut ranges) = (anchor(2, 0), [0; 368], [0; 32]);
    assert_eq!(pat_format(&mut lent, &mut card), 0);
    let (mut plan, mut messages) = ([0x99; 24], [0x99; 656]);
    let raised = with_reserved(2, 0, 2);
    let answer = pat_plan(
        &mut lent,
        &mut card,
        2,
        &[5; 64],
        &mut ranges,
        &mut plan,
        &mut messages,
    );
    assert_eq!((answer, &lent), (0, &raised));
    assert_eq!(plan, [2, 2, 0].map(u64::to_be_bytes).concat()[..]);
    let (used, rest) = messages.split_at(34 * 2 + 112);
    assert_eq!(rest, [0x99; 476]);
    let cmac = Cmac::new(&[0x42; 16]);
    let (inner, leaves) = used.split_at(34);
    let tags = [
        (2, &inner[..17]),
        (3, &inner[17..]),
        (6, &leaves[..73]),
        (7, &leaves[73..]),
    ]
    .map(|(node, message)| (node, cmac.tag(message)));
    for (put, (place, filled)) in [(3, 8), (0, 9), (2, 13), (1, 15)].into_iter().enumerate() {
        assert_eq!(lent, raised, "{put} puts");
        let (node, tag) = tags[place];
        assert_eq!(pat_put_tag(&mut lent, &mut plan, &mut card, node, &tag), 0);
        assert_eq!(plan, [2, 2, filled].map(u64::to_be_bytes).concat()[..]);
        let again = pat_put_tag(&mut lent, &mut plan, &mut card, node, &[0; 16]);
        assert_eq!(again, 9);
    }
    assert_eq!(lent, anchor(2, 2));
    assert_eq!(pat_check(&lent, &card), 0);
}

/// A journalled write leaves both anchors and the journal, a refused one neither, and a recovery with the new anchor mends the card.
#[test]
fn journal_and_both_anchors() {
    let (mut lent, mut card) = (with_reserved(2, 0, 4), [0; 368]);
    assert_eq!(pat_format(&mut lent, &mut card), 0);
    lent = with_reserved(2, 0, 4);
    let (before, old) = (lent.clone(), card);
    let (mut raised, mut ranges, mut journal) = ([0x77; 40], [0; 32], [0x66; 192]);
    for (index, number) in [(4, 4), (2, 0)] {
        assert_eq!((&lent, raised, journal), (&before, [0x77; 40], [0x66; 192]));
        let answer = pat_write_journalled(
            &mut lent,
            &mut raised,
            &mut card,
            index,
            &[5; 64],
            &mut ranges,
            &mut journal,
        );
        assert_eq!(answer, number);
    }
    assert_eq!(
        (&raised[..], &lent),
        (&with_reserved(2, 0, 6)[..], &anchor(2, 6))
    );
    assert_eq!(journal[..8], 6_u64.to_be_bytes());
    let (new, mut torn) = (card, old);
    assert_eq!(pat_recover(&raised, &mut torn, &journal), 0);
    assert_eq!(torn, old);
    assert_eq!(pat_recover(&lent, &mut torn, &journal[1..]), 10);
    assert_eq!(torn, old);
    assert_eq!(pat_recover(&lent, &mut torn, &journal), 0);
    assert_eq!(torn, new);
}

/// Another length of the plan, the messages or the tag is refused 5, whatever else is wrong.
#[test]
fn other_lengths_come_first() {
    let mut lent = anchor(17, 1);
    for (plan, messages) in [(23, 656), (25, 656), (24, 655), (24, 657), (0, 0)] {
        let (mut plan, mut messages) = (vec![1; plan], vec![2; messages]);
        let answer = pat_plan(
            &mut lent,
            &mut [],
            9,
            &[],
            &mut [],
            &mut plan,
            &mut messages,
        );
        assert_eq!(answer, 5);
        assert!(plan.iter().all(|&byte| byte == 1));
        assert!(messages.iter().all(|&byte| byte == 2));
    }
    for (plan, tag) in [(23, 16), (25, 16), (24, 15), (24, 17), (0, 0)] {
        let (mut plan, tag) = (vec![1; plan], vec![2; tag]);
        let answer = pat_put_tag(&mut lent, &mut plan, &mut [], 9, &tag);
        assert_eq!(answer, 5);
        assert!(plan.iter().all(|&byte| byte == 1));
    }
    assert_eq!(lent, anchor(17, 1));
}

/// Another length of the anchor is refused 5, whatever else is wrong.
#[test]
fn anchor_length_comes_first() {
    for length in [0, 32, 39, 41, 64] {
        let mut lent = vec![0xff; length];
        let before = lent.clone();
        assert_eq!(pat_format(&mut lent, &mut []), 5);
        assert_eq!(pat_read(&lent, &[], 9, &mut []), 5);
        assert_eq!(pat_write(&mut lent, &mut [], 9, &[], &mut []), 5);
        assert_eq!(pat_check(&lent, &[]), 5);
        assert_eq!(pat_wipe(&mut lent, &mut []), 5);
        let (mut plan, mut messages) = ([3; 24], [4; 656]);
        let planned = pat_plan(
            &mut lent,
            &mut [],
            9,
            &[],
            &mut [],
            &mut plan,
            &mut messages,
        );
        let put = pat_put_tag(&mut lent, &mut plan, &mut [], 9, &[5; 16]);
        assert_eq!([planned, put], [5; 2]);
        assert_eq!((plan, messages), ([3; 24], [4; 656]));
        assert_eq!(pat_recover(&lent, &mut [], &[]), 5);
        let (mut whole, mut other) = (anchor(17, 1), vec![6; length]);
        for (anchor, raised) in [(&mut lent, &mut whole), (&mut anchor(17, 1), &mut other)] {
            let answer = pat_write_journalled(anchor, raised, &mut [], 9, &[], &mut [], &mut []);
            assert_eq!(answer, 5);
        }
        assert_eq!(
            (lent, whole, other),
            (before, anchor(17, 1), vec![6; length])
        );
    }
}
