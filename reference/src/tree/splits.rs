//! Request T-03: what a plan leaves and hands out, what its puts fill, in every order, and what both refuse.

use super::*;
use crate::cmac::Cmac;

const KEY: [u8; 16] = [0x7d; 16];
const BLOCK: [u8; 64] = [9; 64];

/// A card of that depth after writes of blocks 5 and 1, counted around, and its anchor.
fn used(depth: u64) -> (Anchor, Vec<u8>) {
    let mut card = vec![0x2c; layout::card_bytes(depth)];
    let mut anchor = accepted(format(&KEY, depth, &mut card));
    for index in [5, 1] {
        let index = index % layout::blocks(depth);
        let written = write(&anchor, &mut card, index, &[1; 64], &mut [0; 256]);
        anchor = accepted(written.answer);
    }
    (anchor, card)
}

/// The anchor; no refusal will do.
fn accepted(answer: Answer) -> Anchor {
    match answer {
        Answer::Accepted(anchor) => anchor,
        refused => panic!("{refused:?}"),
    }
}

/// Plans the block; no refusal will do, and the anchor has H raised and the old T.
fn planned(anchor: &Anchor, card: &mut [u8], index: u64, ranges: &mut [u8]) -> (Anchor, Planned) {
    let (counted, planned) = plan(anchor, card, index, &BLOCK, ranges);
    let raised = accepted(counted.answer);
    assert_eq!(raised, anchor.raised());
    (raised, planned.expect("what an accepted plan hands out"))
}

/// Depth 3, block 5, from T = 6: nodes 3 and 6 get 8 and 7, the leaf at 544 its block, and no tag changes.
#[test]
fn leaves_new_labels_and_old_tags() {
    let (anchor, before) = used(3);
    assert_eq!(anchor.root, 6);
    let (mut card, mut written) = (before.clone(), before.clone());
    let (mut ranges, mut due) = ([0x99; 51], [0x99; 51]);
    let (_, made) = planned(&anchor, &mut card, 5, &mut ranges);
    let mut expected = before;
    expected[24..32].copy_from_slice(&8_u64.to_be_bytes());
    expected[96..104].copy_from_slice(&7_u64.to_be_bytes());
    expected[544..608].copy_from_slice(&BLOCK);
    assert_eq!(card, expected);
    accepted(write(&anchor, &mut written, 5, &BLOCK, &mut due).answer);
    assert_eq!(ranges, due);
    let plan = made.plan;
    assert_eq!([plan.index, plan.root, plan.filled], [5, 9, 0]);
}

/// The six messages of that plan: labels as planned or the sibling's own, the parent's new nonce, and the side.
#[test]
fn hands_out_the_messages() {
    let (anchor, mut card) = used(3);
    let (_, made) = planned(&anchor, &mut card, 5, &mut [0; 48]);
    let number = |number: u64| number.to_be_bytes().to_vec();
    let expected = [
        (2, number(5), 9, 0),
        (3, number(8), 9, 1),
        (6, number(7), 8, 0),
        (7, number(0), 8, 1),
        (12, vec![0; 64], 7, 0),
        (13, BLOCK.to_vec(), 7, 1),
    ]
    .map(|(node, label, parent, side)| (Node(node), [label, number(parent), vec![side]].concat()));
    assert_eq!(made.messages, expected);
}

/// A plan with its card, and the tags still to come.
#[derive(Clone)]
struct Split {
    plan: Plan,
    card: Vec<u8>,
    waiting: Vec<(u64, [u8; 16])>,
}

/// Puts the tags that wait in every order: the last put has to leave that anchor and card, and no other moves the anchor. Gives
/// how many orders there are.
fn put_in_every_order(split: &Split, anchor: &Anchor, left: &(Anchor, Vec<u8>)) -> u64 {
    let mut orders = 0;
    for at in 0..split.waiting.len() {
        let mut next = split.clone();
        let (node, tag) = next.waiting.remove(at);
        let answer = put_tag(anchor, &mut next.plan, &mut next.card, node, &tag);
        if next.waiting.is_empty() {
            assert_eq!((accepted(answer), next.card), *left);
            return 1;
        }
        assert_eq!(accepted(answer), *anchor);
        orders += put_in_every_order(&next, anchor, left);
    }
    orders
}

/// Whatever the order in which the tags come, the write's card and anchor are left.
#[test]
fn every_order() {
    let cmac = Cmac::new(&KEY);
    for (depth, orders) in [(1, 2), (2, 24), (3, 720)] {
        let (anchor, card) = used(depth);
        for index in 0..layout::blocks(depth) {
            let (mut written, mut card) = (card.clone(), card.clone());
            let after = accepted(write(&anchor, &mut written, index, &BLOCK, &mut [0; 48]).answer);
            let (anchor, made) = planned(&anchor, &mut card, index, &mut [0; 48]);
            let Planned { plan, messages } = made;
            let tags = messages.iter();
            let waiting = tags.map(|(node, message)| (node.0, cmac.tag(message)));
            let split = Split {
                plan,
                card,
                waiting: waiting.collect(),
            };
            let tried = put_in_every_order(&split, &anchor, &(after, written));
            assert_eq!(tried, orders);
        }
    }
}

/// The number and node that a plan answers, which are the write's; a refused plan hands out and changes nothing.
fn answered(anchor: &Anchor, card: &[u8], index: u64, block: usize, ranges: usize) -> (u64, u64) {
    let (mut written, mut begun) = (card.to_vec(), card.to_vec());
    let (block, mut buffer) = (vec![7; block], vec![0x99; ranges]);
    let (counted, made) = plan(anchor, &mut begun, index, &block, &mut buffer);
    let (number, node) = (counted.answer.number(), counted.answer.node());
    assert_eq!(made.is_some(), number == 0);
    if number != 0 {
        assert_eq!((&begun[..], &buffer), (card, &vec![0x99; ranges]));
    }
    let write = write(anchor, &mut written, index, &block, &mut buffer).answer;
    assert_eq!((number, node), (write.number(), write.node()));
    (number, node)
}

/// The limits of the write in their order.
#[test]
fn limits_of_the_write() {
    let (Anchor { key, .. }, card) = used(2);
    let last = u64::MAX - 1;
    for (depth, root, missing, index, block, ranges, number) in [
        (0, 5, 1, 4, 63, 31, 1),
        (17, 5, 1, 4, 63, 31, 1),
        (2, 5, 1, 4, 63, 31, 2),
        (2, last, 1, 4, 63, 31, 3),
        (2, last, 0, 4, 63, 31, 4),
        (2, last, 0, 3, 63, 31, 5),
        (2, last, 0, 3, 64, 31, 6),
        (2, last, 0, 3, 64, 32, 7),
        (2, 4, 0, 3, 64, 32, 0),
    ] {
        let reserved = root;
        let anchor = Anchor {
            key,
            depth,
            root,
            reserved,
        };
        let answer = answered(&anchor, &card[missing..], index, block, ranges);
        assert_eq!(answer, (number, 0));
    }
}

/// A wrong tag of each node, for block 1: nodes 2, 3 and 4 are checked, as by the write.
#[test]
fn wrong_tags_of_the_write() {
    let (anchor, card) = used(2);
    for node in layout::nodes(2) {
        let mut spoiled = card.clone();
        spoiled[layout::tag(2, node).start] ^= 1;
        let due = if node.0 < 5 { (8, node.0) } else { (0, 0) };
        assert_eq!(answered(&anchor, &spoiled, 1, 64, 32), due);
    }
}

/// The tests of a put in their order, 1, 2, 3 and 9: the first that fails answers, and nothing changes.
#[test]
fn put_refuses_in_order() {
    for (depth, root, length, index, node, filled, number) in [
        (0, 1, 7, 4, 1, 0xff, 1),
        (17, 1, 7, 4, 1, 0xff, 1),
        (2, 3, 7, 4, 1, 0xff, 2),
        (2, 4, 367, 4, 1, 0xff, 3),
        (2, 4, 369, 2, 3, 0, 3),
        (2, 4, 368, 4, 3, 0, 9),
        (2, 4, 368, u64::MAX, 3, 0, 9),
        (2, 4, 368, u64::MAX - 3, 3, 0, 9),
        (2, 4, 368, 2, 5, 0, 9),
        (2, 4, 368, 2, 3, 2, 9),
        (2, 4, 368, 2, 3, u64::MAX, 9),
        (2, 4, 368, 2, 3, !2, 0),
        (2, u64::MAX - 1, 368, 2, 3, 0, 0),
    ] {
        let key = KEY;
        let reserved = root;
        let anchor = Anchor {
            key,
            depth,
            root,
            reserved,
        };
        let root = 77;
        let before = Plan {
            index,
            root,
            filled,
        };
        let (mut plan, mut card) = (before, vec![0x3d; length]);
        let answer = put_tag(&anchor, &mut plan, &mut card, node, &[1; 16]);
        assert_eq!(answer.number(), number, "{anchor:?}, {before:?}, {node}");
        assert_eq!(answer.node(), 0);
        let unchanged = plan == before && card == vec![0x3d; length];
        assert_eq!(unchanged, number != 0);
    }
}

/// Of all nodes only the plan's are awaited: the children of each node of the path above the leaf, from the root down. A put
/// fills the node's tag and its bit alone, whatever else is filled, and bits above stay.
#[test]
fn places() {
    for depth in 1..=4 {
        let (anchor, card) = used(depth);
        for index in 0..layout::blocks(depth) {
            let leaf = layout::blocks(depth) + index;
            let at = |place: u64| 2 * (leaf >> (depth - place / 2)) + place % 2;
            let nodes: Vec<u64> = (0..2 * depth).map(at).collect();
            for node in (0..4 * layout::blocks(depth)).chain([1 << 63, u64::MAX]) {
                for filled in [0, u64::MAX << (2 * depth), 0b0101_0101, 0b1010_1010] {
                    let root = 5;
                    let before = Plan {
                        index,
                        root,
                        filled,
                    };
                    let (mut plan, mut left) = (before, card.clone());
                    let answer = put_tag(&anchor, &mut plan, &mut left, node, &[3; 16]);
                    let place = nodes.iter().position(|&one| one == node);
                    let Some(place) = place.filter(|place| filled >> place & 1 == 0) else {
                        assert_eq!(answer, Answer::Refused(Refusal::NotAwaited));
                        assert_eq!((plan, &left), (before, &card));
                        continue;
                    };
                    let filled = filled + (1 << place);
                    assert_eq!(plan, Plan { filled, ..before });
                    let mut due = card.clone();
                    due[layout::tag(depth, Node(node))].fill(3);
                    assert_eq!(left, due);
                    let all = (1 << (2 * depth)) - 1;
                    let root = if filled & all == all { 5 } else { anchor.root };
                    assert_eq!(accepted(answer), Anchor { root, ..anchor });
                }
            }
        }
    }
}

/// A tag is put as it is: a check of the finished card names the node that got another.
#[test]
fn wrong_tags_are_put() {
    let (anchor, card) = used(3);
    for wrong in 0..6 {
        let mut card = card.clone();
        let (raised, made) = planned(&anchor, &mut card, 5, &mut [0; 48]);
        let (mut plan, mut last) = (made.plan, raised);
        for (place, (node, message)) in made.messages.iter().enumerate() {
            let mut tag = Cmac::new(&KEY).tag(message);
            tag[15] ^= u8::from(place == wrong);
            last = accepted(put_tag(&raised, &mut plan, &mut card, node.0, &tag));
        }
        let refused = Answer::Refused(Refusal::Wrong(made.messages[wrong].0));
        assert_eq!(check(&last, &card).answer, refused);
    }
}

/// With tags missing, the block is refused. A plan from the card of before takes other nonces and gives none of its messages.
#[test]
fn left_unfinished() {
    let (anchor, before) = used(3);
    let mut card = before.clone();
    let (raised, made) = planned(&anchor, &mut card, 5, &mut [0; 48]);
    let mut plan = made.plan;
    for (node, message) in &made.messages[1..] {
        assert_eq!(read(&raised, &card, 5, &mut [0; 64]).answer.number(), 8);
        assert_eq!(check(&raised, &card).answer.number(), 8);
        let tag = Cmac::new(&KEY).tag(message);
        let still = put_tag(&raised, &mut plan, &mut card, node.0, &tag);
        assert_eq!(accepted(still), raised);
    }
    assert_eq!(plan.filled, 0b11_1110);
    let (twice, again) = planned(&raised, &mut before.clone(), 5, &mut [0; 48]);
    assert_eq!([twice.root, twice.reserved, again.plan.root], [6, 12, 12]);
    for message in &again.messages {
        assert!(!made.messages.contains(message));
    }
}
