//! Refusal 8 names the first wrong tag in the call's checking order: every set of wrong tags at depth 3. A plan has the write's
//! order, and a wipe sees none.

use reference::tree::Node;
use tests::call::{Answer, Call, Kind};
use tests::cards;
use tests::list::List;
use tests::random::Random;

const DEPTH: u64 = 3;

/// Nodes 2 to 15.
const NODES: u64 = 14;

/// The checking order of a write of each block: u_1, v_1, u_2, v_2, v_3.
const WRITE_ORDER: [[u64; 5]; 8] = [
    [2, 3, 4, 5, 9],
    [2, 3, 4, 5, 8],
    [2, 3, 5, 4, 11],
    [2, 3, 5, 4, 10],
    [3, 2, 6, 7, 13],
    [3, 2, 6, 7, 12],
    [3, 2, 7, 6, 15],
    [3, 2, 7, 6, 14],
];

/// The path of each block: u_1, u_2, u_3.
const READ_ORDER: [[u64; 3]; 8] = [
    [2, 4, 8],
    [2, 4, 9],
    [2, 5, 10],
    [2, 5, 11],
    [3, 6, 12],
    [3, 6, 13],
    [3, 7, 14],
    [3, 7, 15],
];

/// Whether the set has the node.
fn has(set: u64, node: u64) -> bool {
    set >> (node - 2) & 1 == 1
}

/// Expects the first of the nodes that is in the set, or acceptance.
fn expect(call: &Call, set: u64, order: impl IntoIterator<Item = u64>) {
    let mut call = call.clone();
    let first = order.into_iter().find(|&node| has(set, node));
    let expected = first.map_or(Answer::ACCEPTED, Answer::wrong);
    assert_eq!(call.both(), expected, "set {set:b}: {}", call.short());
}

/// Expects that a wipe of this card leaves what a wipe of the other did.
fn expect_wiped(call: &Call, wiped: &Call) {
    let mut call = call.clone();
    call.kind = Kind::Wipe;
    assert_eq!(call.both(), Answer::ACCEPTED);
    call.expect_bytes(wiped, "wiped");
}

/// All 16,384 sets, with every read, every write, every plan, the check and the wipe.
#[test]
fn every_set_of_wrong_tags() {
    let mut random = Random::new(0x66697273);
    let mut list = List::new(DEPTH, &mut random);
    for index in [5, 2, 7, 5, 0] {
        list.write(index, &mut random);
    }
    let mut call = list.call(Kind::Plan, 0, &mut random);
    let mut wiped = call.clone();
    wiped.kind = Kind::Wipe;
    assert_eq!(wiped.both(), Answer::ACCEPTED);
    for set in 0..1 << NODES {
        call.card.copy_from_slice(&list.card);
        for node in (2..2 + NODES).filter(|&node| has(set, node)) {
            cards::spoil_tag(&mut call.card, DEPTH, Node(node));
        }
        expect_wiped(&call, &wiped);
        call.kind = Kind::Check;
        expect(&call, set, 2..2 + NODES);
        for index in 0..8 {
            call.index = index;
            call.kind = Kind::Read;
            expect(&call, set, READ_ORDER[index as usize]);
            for kind in [Kind::Write, Kind::Plan] {
                call.kind = kind;
                expect(&call, set, WRITE_ORDER[index as usize]);
            }
        }
    }
}
