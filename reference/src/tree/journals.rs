//! Request T-05's calls: what a journalled write fills, what a recovery applies, and what both refuse.

use super::*;
use crate::cmac::Cmac;

const KEY: [u8; 16] = [0x93; 16];
const BLOCK: [u8; 64] = [7; 64];

/// A card of that depth after writes of blocks 1 and 0 and an attempt that was lost, and its anchor.
fn used(depth: u64) -> (Anchor, Vec<u8>) {
    let mut card = vec![0x58; layout::card_bytes(depth)];
    let mut anchor = accepted(format(&KEY, depth, &mut card));
    for index in [1, 0] {
        let answer = write(&anchor, &mut card, index, &[index as u8; 64], &mut [0; 256]).answer;
        anchor = accepted(answer);
    }
    (anchor.raised(), card)
}

/// The anchor; no refusal will do.
fn accepted(answer: Answer) -> Anchor {
    match answer {
        Answer::Accepted(anchor) => anchor,
        refused => panic!("{refused:?}"),
    }
}

/// What a journalled write of a block leaves.
struct Left {
    raised: Anchor,
    last: Anchor,
    card: Vec<u8>,
    journal: Vec<u8>,
}

/// Writes with a journal; no refusal will do.
fn journalled(anchor: &Anchor, card: &[u8], index: u64) -> Left {
    let (mut card, mut journal) = (card.to_vec(), vec![0xee; journal::bytes(anchor.depth)]);
    let (counted, raised) = write_journalled(
        anchor,
        &mut card,
        index,
        &BLOCK,
        &mut [0; 256],
        &mut journal,
    );
    Left {
        raised: raised.expect("the raised anchor"),
        last: accepted(counted.answer),
        card,
        journal,
    }
}

/// The journal with its tag made anew, under that key.
fn tagged(key: &[u8; 16], mut journal: Vec<u8>) -> Vec<u8> {
    let end = journal.len() - 16;
    let tag = Cmac::new(key).tag(&journal[..end]);
    journal[end..].copy_from_slice(&tag);
    journal
}

/// Depth 2, block 2, from T = 4 and H = 6: every byte of the journal, from the papers' places alone.
#[test]
fn journal_of_row_c() {
    let (anchor, card) = used(2);
    assert_eq!([anchor.root, anchor.reserved], [4, 6]);
    let left = journalled(&anchor, &card, 2);
    let ranges = [8_u32, 16, 24, 24, 208, 80, 352, 16]
        .map(u32::to_be_bytes)
        .concat();
    let cmac = Cmac::new(&KEY);
    let tag = |label: &[u8], parent: u64, side: u8| {
        cmac.tag(&[label, &parent.to_be_bytes(), &[side]].concat())
    };
    let mut due = [&8_u64.to_be_bytes()[..], &ranges].concat();
    due.extend(tag(&3_u64.to_be_bytes(), 8, 0));
    due.extend(7_u64.to_be_bytes());
    due.extend(tag(&7_u64.to_be_bytes(), 8, 1));
    due.extend(BLOCK);
    due.extend(tag(&BLOCK, 7, 0));
    due.extend(tag(&[0; 64], 7, 1));
    due.extend(cmac.tag(&due));
    assert_eq!(left.journal, due);
    assert_eq!(due.len(), 192);
}

/// It is the write, count and all, with both anchors.
#[test]
fn as_the_write() {
    for depth in [1, 2, 3, 7] {
        let (anchor, card) = used(depth);
        for index in [0, 1, layout::blocks(depth) - 1] {
            let (mut written, mut other) = (card.clone(), card.clone());
            let (mut ranges, mut same) = ([0x21; 260], [0x21; 260]);
            let mut journal = vec![0; journal::bytes(depth)];
            let due = write(&anchor, &mut written, index, &BLOCK, &mut ranges);
            let (counted, raised) =
                write_journalled(&anchor, &mut other, index, &BLOCK, &mut same, &mut journal);
            assert_eq!((counted, &other, same), (due, &written, ranges));
            assert_eq!(counted.count, 8 * depth + 8);
            let root = anchor.root;
            let last = accepted(due.answer);
            assert_eq!(raised, Some(Anchor { root, ..last }));
        }
    }
}

/// With the new T the old card becomes the new one, also where its ranges are torn, and a second time nothing changes. With the
/// old T, raised or not, nothing does.
#[test]
fn applied_with_its_own_anchor() {
    for depth in 1..=4 {
        let (anchor, old) = used(depth);
        for index in 0..layout::blocks(depth) {
            let left = journalled(&anchor, &old, index);
            let mut torn = old.clone();
            for range in ranges::changed(depth, BlockIndex(index)) {
                torn[range].fill(0xc3);
            }
            for card in [&old, &torn, &left.card] {
                let mut mended = card.clone();
                let answer = recover(&left.last, &mut mended, &left.journal);
                assert_eq!(accepted(answer), left.last);
                assert_eq!(mended, left.card);
                for before in [anchor, left.raised] {
                    let mut same = card.clone();
                    accepted(recover(&before, &mut same, &left.journal));
                    assert_eq!(&same, card);
                }
            }
        }
    }
}

/// Bytes outside the ranges stay, whatever they are.
#[test]
fn other_bytes_stay() {
    let (anchor, old) = used(3);
    let left = journalled(&anchor, &old, 5);
    let mut card = vec![0x17; old.len()];
    accepted(recover(&left.last, &mut card, &left.journal));
    for (at, &byte) in card.iter().enumerate() {
        let mut changed = ranges::changed(3, BlockIndex(5)).into_iter();
        let inside = changed.any(|range| range.contains(&at));
        assert_eq!(byte, if inside { left.card[at] } else { 0x17 }, "byte {at}");
    }
}

/// One bit of any byte, another key, zeros at T = 0 and the journal of the write before: none is applied.
#[test]
fn others_are_not_applied() {
    let (anchor, old) = used(2);
    let left = journalled(&anchor, &old, 1);
    let kept = |anchor: &Anchor, journal: &[u8]| {
        let mut card = old.clone();
        assert_eq!(accepted(recover(anchor, &mut card, journal)), *anchor);
        assert_eq!(card, old);
    };
    for bit in 0..8 * left.journal.len() {
        let mut other = left.journal.clone();
        other[bit / 8] ^= 1 << (bit % 8);
        kept(&left.last, &other);
    }
    kept(&left.last, &tagged(&[0x94; 16], left.journal.clone()));
    let next = journalled(&left.last, &left.card, 1);
    kept(&next.last, &left.journal);
    let root = 0;
    kept(&Anchor { root, ..anchor }, &[0; 192]);
}

/// A right tag and the right T, but the ranges of no write: refused 10, and nothing changes. With another T it is not looked at.
#[test]
fn ranges_of_no_write() {
    let (anchor, old) = used(2);
    let left = journalled(&anchor, &old, 1);
    for at in journal::list(2) {
        let mut other = left.journal.clone();
        other[at] ^= 4;
        let other = tagged(&KEY, other);
        let mut card = old.clone();
        let answer = recover(&left.last, &mut card, &other);
        assert_eq!(answer, Answer::Refused(Refusal::Journal));
        accepted(recover(&left.raised, &mut card, &other));
        assert_eq!(card, old);
    }
}

/// The tests in their order, for the write 1, 2, 3, 10, 4, 5, 6, 7, for recovery 1, 2, 3, 10; nothing changes.
#[test]
fn refusals_in_order() {
    let last = u64::MAX - 1;
    for (depth, reserved, missing, journal, index, block, ranges, write, recovery) in [
        (0, 5, 1, 193, 4, 63, 31, 1, 1),
        (17, 5, 1, 193, 4, 63, 31, 1, 1),
        (2, 5, 1, 193, 4, 63, 31, 2, 2),
        (2, 2, 1, 193, 4, 63, 31, 2, 2),
        (2, last, 1, 193, 4, 63, 31, 3, 3),
        (2, last, 0, 193, 4, 63, 31, 10, 10),
        (2, last, 0, 191, 4, 63, 31, 10, 10),
        (2, last, 0, 0, 4, 63, 31, 10, 10),
        (2, last, 0, 192, 4, 63, 31, 4, 0),
        (2, last, 0, 192, 3, 63, 31, 5, 0),
        (2, last, 0, 192, 3, 64, 31, 6, 0),
        (2, last, 0, 192, 3, 64, 32, 7, 0),
        (2, last - 2, 0, 192, 3, 64, 32, 0, 0),
    ] {
        let (anchor, card) = used(2);
        let anchor = Anchor {
            depth,
            reserved,
            ..anchor
        };
        let card = &card[missing..];
        let (mut after, mut lent, mut listed) = (card.to_vec(), vec![5; journal], vec![9; ranges]);
        assert_eq!(recover(&anchor, &mut after, &lent).number(), recovery);
        assert_eq!(after, card);
        let block = vec![1; block];
        let (counted, raised) =
            write_journalled(&anchor, &mut after, index, &block, &mut listed, &mut lent);
        assert_eq!(
            (counted.answer.number(), raised.is_some()),
            (write, write == 0)
        );
        let kept = after == card && lent == vec![5; journal] && listed == vec![9; ranges];
        assert_eq!(kept, write != 0);
    }
}

/// Test 8 is the write's, and a refusal leaves the journal.
#[test]
fn wrong_tags() {
    let (anchor, card) = used(2);
    for node in layout::nodes(2) {
        let mut spoiled = card.clone();
        spoiled[layout::tag(2, node).start] ^= 1;
        let (mut other, mut journal) = (spoiled.clone(), [3; 192]);
        let due = write(&anchor, &mut spoiled, 1, &BLOCK, &mut [0; 32]);
        let (counted, raised) =
            write_journalled(&anchor, &mut other, 1, &BLOCK, &mut [0; 32], &mut journal);
        assert_eq!((counted, other), (due, spoiled));
        let refused = counted.answer.number() == 8;
        assert_eq!(refused, node.0 < 5);
        assert_eq!((raised.is_none(), journal == [3; 192]), (refused, refused));
    }
}
