//! How each test is made to fail, in each of its ways.

use super::{checked, Test};
use crate::call::Call;
use crate::random::Random;
use crate::{cards, journals, plans};
use reference::tree::layout;

/// The tests that are made to fail by one thing each, in the order in which they are: what others go by comes last.
pub const ALTERED: [Test; 14] = [
    Test::CardLength,
    Test::BlockIndex,
    Test::BlockLength,
    Test::RangesLength,
    Test::MessagesLength,
    Test::TagLength,
    Test::RaisedLength,
    Test::JournalLength,
    Test::PlanPlace,
    Test::PlanNode,
    Test::PlanIndex,
    Test::PlanLength,
    Test::Depth,
    Test::AnchorLength,
];

/// Lengths that are not an anchor's.
const ANCHORS: [usize; 6] = [0, 32, 39, 41, 48, 80];

/// Makes one of these tests fail.
pub fn fail(call: &mut Call, test: Test, way: usize) {
    let depth = cards::depth(&call.anchor);
    match test {
        Test::AnchorLength => call.anchor.resize(ANCHORS[way], 0x1d),
        Test::RaisedLength => call.raised.resize(ANCHORS[way], 0x1d),
        Test::PlanLength => call.plan.resize([0, 8, 16, 23, 25, 48][way], 0x1d),
        Test::MessagesLength => call.messages.resize(messages(depth, way), 0x1d),
        Test::TagLength => call.tag.resize([0, 8, 15, 17, 24, 32][way], 0x1d),
        Test::JournalLength => call.journal.resize(journal(depth, way), 0x1d),
        Test::Depth => {
            let wrong = [0, 17, 32, 256 + depth, (1 << 32) + depth, !0];
            cards::set_depth(&mut call.anchor, wrong[way]);
        }
        Test::CardLength => call.card.resize(other_length(depth, way), 0x1d),
        Test::BlockIndex => call.index = beyond(depth, call.index, way),
        Test::BlockLength => call.block.resize([0, 63, 65, 16, 80, 128][way], 0x1d),
        Test::RangesLength => call.ranges.truncate(too_short(depth, way)),
        Test::PlanIndex => {
            let index = beyond(depth, plans::index(&call.plan), way);
            plans::set_index(&mut call.plan, index);
        }
        Test::PlanNode => call.node = other_node(call, way),
        Test::PlanPlace => fill_place(call, way),
        Test::RootNonce | Test::NoncesLeft | Test::Tags | Test::JournalRanges => {
            unreachable!("not by one thing")
        }
    }
}

/// Gives a recovery a journal: one to be applied whose ranges are no write's, or one that is accepted, applied or not.
pub fn set_journal(call: &mut Call, strange: Option<usize>, random: &mut Random) {
    let (anchor, index) = (call.anchor.clone(), call.index);
    if let Some(way) = strange {
        call.journal = journals::of_no_write(&anchor, index, way, random);
    } else if random.below(2) == 0 {
        call.journal = journals::any(&anchor, index, random);
    }
}

/// Spoils one checked node and gives its number; every entry away from it stays, so that it is the first wrong one.
pub fn spoil_card(call: &mut Call, way: usize, random: &mut Random) -> u64 {
    let depth = cards::depth(&call.anchor);
    let checked = checked(call.kind, depth, call.index);
    let node = checked[random.below(checked.len())];
    let part = if way.is_multiple_of(2) {
        layout::tag(depth, node)
    } else {
        layout::label(depth, node)
    };
    call.card[part.start + random.below(part.len())] ^= 1 << random.below(8);
    node.0
}

/// A length that is not the messages': just what they take is too short, but for depth 16.
fn messages(depth: u64, way: usize) -> usize {
    [0, plans::messages_bytes(depth), 640, 655, 657, 1_312][way]
}

/// A length that is not the journal's.
fn journal(depth: u64, way: usize) -> usize {
    let wanted = journals::bytes(depth);
    [
        0,
        wanted - 1,
        wanted + 1,
        wanted - 56,
        wanted + 56,
        2 * wanted,
    ][way]
}

/// A length that is not the card's.
fn other_length(depth: u64, way: usize) -> usize {
    let length = layout::card_bytes(depth);
    [
        length - 1,
        length + 1,
        0,
        layout::card_bytes(depth - 1),
        layout::card_bytes(depth + 1),
        2 * length,
    ][way]
}

/// A block number beyond the last.
fn beyond(depth: u64, index: u64, way: usize) -> u64 {
    let blocks = layout::blocks(depth);
    [
        blocks,
        blocks + index,
        (1 << 16) + index,
        (1 << 32) + index,
        (1 << 63) + index,
        u64::MAX,
    ][way]
}

/// A length below 16n.
fn too_short(depth: u64, way: usize) -> usize {
    let wanted = 16 * depth as usize;
    [0, 1, 8, wanted / 2, wanted - 8, wanted - 1][way]
}

/// A node that is not the plan's: the root and none, the first beyond the card, far beyond, and the first number that is left.
fn other_node(call: &Call, way: usize) -> u64 {
    let depth = cards::depth(&call.anchor);
    let nodes = plans::nodes(depth, plans::index(&call.plan));
    let mut elsewhere = (2..).filter(|node| !nodes.contains(node));
    [
        0,
        1,
        2 << depth,
        (1 << 63) + call.node,
        u64::MAX,
        elsewhere.next().expect("numbers go on"),
    ][way]
}

/// Fills the place of the put's node, alone or with others.
fn fill_place(call: &mut Call, way: usize) {
    let depth = cards::depth(&call.anchor);
    let nodes = plans::nodes(depth, plans::index(&call.plan));
    let place = nodes.iter().position(|&node| node == call.node);
    let bit = 1 << place.expect("a node of the plan");
    let filled = plans::filled(&call.plan) | bit;
    let all = [
        bit,
        filled,
        2 * bit - 1,
        (1 << (2 * depth)) - 1,
        bit | !0 << (2 * depth),
        u64::MAX,
    ];
    plans::set_filled(&mut call.plan, all[way]);
}
