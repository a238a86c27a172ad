//! What a plan leaves and hands out, held to the write in one: the write's labels and the old tags, and the messages that the
//! write tags.

use reference::cmac::Cmac;
use reference::tree::{layout, messages, paths, BlockIndex, Node};
use tests::call::{Answer, Call, Kind};
use tests::list::List;
use tests::random::Random;
use tests::split::Split;
use tests::{cards, plans};

/// The card with the tags of these nodes from another one.
fn with_tags_of(card: &[u8], other: &[u8], depth: u64, nodes: &[u64]) -> Vec<u8> {
    let mut card = card.to_vec();
    for &node in nodes {
        let tag = layout::tag(depth, Node(node));
        card[tag.clone()].copy_from_slice(&other[tag]);
    }
    card
}

/// The nodes are those of the path and their siblings, and each message is the one that the write tags there.
fn expect_messages(planned: &Call, write: &Call) {
    let after = cards::parsed(&write.anchor);
    let depth = after.depth;
    let path = &paths::path(depth, BlockIndex(write.index))[1..];
    let mut tagged: Vec<u64> = path
        .iter()
        .flat_map(|node| [node.0, node.sibling().0])
        .collect();
    tagged.sort();
    assert_eq!(plans::nodes(depth, write.index), tagged);
    let (cmac, mut card) = (Cmac::new(&after.key), planned.card.clone());
    for (place, &node) in (0..).zip(&tagged) {
        let message = &planned.messages[plans::message(depth, place)];
        let due = messages::message(&after, &write.card, Node(node));
        assert_eq!(message, due, "node {node}: {}", write.short());
        card[layout::tag(depth, Node(node))].copy_from_slice(&cmac.tag(message));
    }
    assert!(card == write.card, "their tags: {}", write.short());
}

/// Plans a block beside the write of it.
fn expect(list: &List, index: u64, random: &mut Random) {
    let depth = list.depth;
    let before = list.call(Kind::Plan, index, random);
    let (mut planned, mut write) = (before.clone(), before.clone());
    write.kind = Kind::Write;
    assert_eq!(planned.both(), Answer::ACCEPTED, "{}", before.short());
    assert_eq!(write.both(), Answer::ACCEPTED, "{}", before.short());
    let nodes = plans::nodes(depth, index);
    let due = with_tags_of(&write.card, &before.card, depth, &nodes);
    assert!(planned.card == due, "the card: {}", before.short());
    assert_eq!(planned.ranges, write.ranges);
    assert_eq!(planned.anchor, cards::raised(&before.anchor));
    let root = cards::root(&write.anchor);
    assert_eq!(planned.plan, plans::plan(index, root, 0));
    let used = plans::messages_bytes(depth);
    assert_eq!(planned.messages[used..], before.messages[used..]);
    expect_messages(&planned, &write);
}

/// Plans of every block of small cards and of some of large ones, on written cards and up to the last nonce.
#[test]
fn beside_the_write() {
    let mut random = Random::new(0x7772_6974);
    let mut plans = 0;
    for depth in 1..=16 {
        let used = List::used(depth, &mut random);
        let blocks: Vec<u64> = match depth {
            1..=7 => (0..used.blocks()).collect(),
            _ => {
                let some = (0..8).map(|_| random.below(used.blocks() as usize) as u64);
                some.chain([0, 1, used.blocks() - 1]).collect()
            }
        };
        let last = List::used(depth, &mut random).moved_before(u64::MAX, 1);
        for list in [used, last] {
            for &index in &blocks {
                expect(&list, index, &mut random);
                plans += 1;
            }
        }
    }
    println!("{plans} plans beside their writes");
}

/// Each tag that a plan checks, wrong by a bit: the plan names its node, as the write does.
#[test]
fn names_the_wrong_node() {
    let mut random = Random::new(0x6e61_6d65);
    for depth in 1..=16 {
        let list = List::used(depth, &mut random);
        let index = random.below(list.blocks() as usize) as u64;
        for node in paths::write_checks(depth, BlockIndex(index)) {
            let mut call = list.call(Kind::Plan, index, &mut random);
            let at = layout::tag(depth, node).start + random.below(16);
            call.card[at] ^= 1 << random.below(8);
            let mut write = call.clone();
            write.kind = Kind::Write;
            for mut call in [call, write] {
                assert_eq!(call.both(), Answer::wrong(node.0), "{}", call.short());
            }
        }
    }
}

/// As long as a tag is missing, a read of the block and a check are refused under the anchor, which still has the old T.
#[test]
fn left_unfinished() {
    let mut random = Random::new(0x756e_6669);
    for depth in 1..=8 {
        let list = List::used(depth, &mut random);
        for _ in 0..12 {
            let index = random.below(list.blocks() as usize) as u64;
            let mut asked = list.call(Kind::Plan, index, &mut random);
            asked.block = random.bytes(64);
            let mut planned = asked.clone();
            assert_eq!(planned.both(), Answer::ACCEPTED);
            let mut split = Split::new(asked, planned);
            while !split.waiting.is_empty() {
                for kind in [Kind::Read, Kind::Check] {
                    let mut call = split.left.clone();
                    call.kind = kind;
                    assert_eq!(call.both().number, 8, "{}", call.short());
                }
                split.put_next(random.below(split.waiting.len()));
            }
        }
    }
}
