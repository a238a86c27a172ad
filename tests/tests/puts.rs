//! Puts that no plan waits for, and plans of any bytes: refused with 9, or the tag is put, and nothing else changes.

use reference::tree::{layout, Node};
use tests::call::{Answer, Call, Kind};
use tests::list::List;
use tests::random::Random;
use tests::split::Split;
use tests::{cards, plans};

/// What C's header says of a put within its other limits.
fn due(call: &Call) -> Answer {
    let (depth, index) = (cards::depth(&call.anchor), plans::index(&call.plan));
    if index >= 1 << depth {
        return Answer::plain(9);
    }
    let nodes = plans::nodes(depth, index);
    let place = nodes.iter().position(|&node| node == call.node);
    match place {
        Some(place) if plans::filled(&call.plan) >> place & 1 == 0 => Answer::ACCEPTED,
        _ => Answer::plain(9),
    }
}

/// The anchor after an accepted put: T is the plan's root nonce if now every place is filled, H stays.
fn due_anchor(call: &Call, plan: &[u8]) -> Vec<u8> {
    let (mut anchor, places) = (call.anchor.clone(), 2 * cards::depth(&call.anchor));
    if plans::filled(plan) | !0 << places == !0 {
        cards::set_root(&mut anchor, plans::root(plan));
    }
    anchor
}

/// How often a put was accepted and refused.
#[derive(Default, Debug)]
struct Seen {
    accepted: u64,
    refused: u64,
}

impl Seen {
    /// Makes the put, which has to answer what is due.
    #[track_caller]
    fn put(&mut self, call: &Call) {
        let (answer, mut after) = (due(call), call.clone());
        assert_eq!(after.both(), answer, "{}", call.short());
        if answer.accepted() {
            let anchor = due_anchor(call, &after.plan);
            assert_eq!(after.anchor, anchor, "{}", call.short());
        }
        match answer.accepted() {
            true => self.accepted += 1,
            false => self.refused += 1,
        }
    }

    /// Stops the test unless both came up that often.
    fn expect(&self, least: u64) {
        println!("{self:?}");
        assert!(self.accepted >= least && self.refused >= least, "{self:?}");
    }
}

/// The card as last left, and cards of other bytes.
fn any_cards(list: &List, random: &mut Random) -> [Vec<u8>; 3] {
    let length = list.card.len();
    [list.card.clone(), random.bytes(length), vec![0xff; length]]
}

/// Numbers up to twice the card's nodes; and far ones, of which the low or the high bits are a node's.
fn any_nodes(depth: u64) -> Vec<u64> {
    let near = 4 << depth;
    let mut nodes: Vec<u64> = (0..near).collect();
    for node in 0..2 << depth {
        nodes.extend([8, 16, 32, 48, 63].map(|bit| (1 << bit) + node));
        nodes.extend([u64::MAX - node, node << 32, node << (63 - depth)]);
    }
    nodes
}

/// Filled places: none, each alone, all but each, all, and the bits above them.
fn any_filled(depth: u64) -> Vec<u64> {
    let (places, above) = ((1 << (2 * depth)) - 1, !0 << (2 * depth));
    let mut all = vec![0, places, above, u64::MAX];
    for place in 0..2 * depth {
        let bit = 1 << place;
        all.extend([bit, places ^ bit, u64::MAX ^ bit]);
    }
    all
}

/// Every node and far numbers, under the plan of every block with many places filled, on good and on spoiled cards.
#[test]
fn every_node() {
    let (mut random, mut seen) = (Random::new(0x6e6f_6465), Seen::default());
    for depth in 1..=4 {
        let list = List::used(depth, &mut random);
        let nodes = any_nodes(depth);
        for index in 0..list.blocks() {
            let mut call = list.call(Kind::Put, index, &mut random);
            for filled in any_filled(depth) {
                let cards = any_cards(&list, &mut random);
                call.plan = plans::plan(index, random.word(), filled);
                for &node in &nodes {
                    call.card.copy_from_slice(&cards[random.below(3)]);
                    call.node = node;
                    seen.put(&call);
                }
            }
        }
    }
    seen.expect(1_000);
}

/// Block numbers that no card has, some of which are a block's once bits are lost.
fn absurd_blocks(depth: u64, random: &mut Random) -> Vec<u64> {
    let blocks = layout::blocks(depth);
    let within = random.below(blocks as usize) as u64;
    let mut all = vec![blocks, 2 * blocks, u64::MAX, 1 << 63, blocks.wrapping_neg()];
    for far in [blocks, 1 << 16, 1 << 32, 1 << 48, 1 << 63] {
        all.extend([far + within, u64::MAX - far, u64::MAX - within]);
    }
    all.push(blocks.wrapping_neg() + within);
    all.extend((0..4).map(|_| random.word() | 1 << (depth + random.below(48) as u64)));
    all
}

/// The nodes that such a block would have if sums went around.
fn wrapped_nodes(depth: u64, index: u64) -> Vec<u64> {
    let leaf = layout::blocks(depth).wrapping_add(index);
    let mut nodes: Vec<u64> = (0..=depth).map(|up| leaf >> up).collect();
    nodes.extend((0..=depth).map(|up| leaf >> up ^ 1));
    nodes
}

/// Plans of blocks that no card has wait for nothing.
#[test]
fn absurd_plans() {
    let (mut random, mut refused) = (Random::new(0x6162_7375), 0);
    for depth in (1..=6).chain([10]) {
        let list = List::used(depth, &mut random);
        for index in absurd_blocks(depth, &mut random) {
            let mut call = list.call(Kind::Put, 0, &mut random);
            let own = plans::nodes(depth, index % list.blocks());
            for node in wrapped_nodes(depth, index).into_iter().chain(own) {
                for filled in [0, u64::MAX, !0 << (2 * depth), random.word()] {
                    call.card = any_cards(&list, &mut random)[random.below(3)].clone();
                    call.plan = plans::plan(index, random.word(), filled);
                    call.node = node;
                    assert_eq!(call.both(), Answer::plain(9), "{}", call.short());
                    refused += 1;
                }
            }
        }
    }
    println!("{refused} puts under plans of no block");
}

/// How many random puts, so that no depth takes long.
fn puts(depth: u64) -> u64 {
    match depth {
        1..=8 => 3_000,
        9..=12 => 400,
        _ => 80,
    }
}

/// Any node, most often one of that block's plan; among the others some that are one of these with a bit above more.
fn any_node(depth: u64, index: u64, random: &mut Random) -> u64 {
    let own = plans::nodes(depth, index)[random.below(2 * depth as usize)];
    match random.below(10) {
        0 => random.below(4 << depth) as u64,
        1 => random.word(),
        2 => own | 1 << (depth + 1 + random.below(63 - depth as usize) as u64),
        3 => [0, 1, 1 << 63][random.below(3)],
        _ => own,
    }
}

/// Plans of 24 random bytes, most of them with a block of the card, and any node, most often one of that block's; in a quarter the
/// tag that the node has on the card.
#[test]
fn random_plans() {
    let (mut random, mut seen) = (Random::new(0x6279_7465), Seen::default());
    for depth in 1..=16 {
        let list = List::used(depth, &mut random);
        for _ in 0..puts(depth) {
            let mut call = list.call(Kind::Put, 0, &mut random);
            call.plan = random.bytes(24);
            let index = random.below(list.blocks() as usize) as u64;
            if random.below(8) != 0 {
                plans::set_index(&mut call.plan, index);
            }
            call.node = any_node(depth, index, &mut random);
            if random.below(2) == 0 {
                call.card = random.bytes(list.card.len());
            }
            if (2..2 << depth).contains(&call.node) && random.below(4) == 0 {
                call.tag = call.card[layout::tag(depth, Node(call.node))].to_vec();
            }
            seen.put(&call);
        }
    }
    seen.expect(3_000);
}

/// Tries every place of the plan again that is filled, with its own tag and with another: refused.
fn try_again(split: &Split, put: &[(u64, [u8; 16])], seen: &mut Seen) {
    for &(node, tag) in put {
        for tag in [tag, [0x77; 16]] {
            seen.put(&Call {
                node,
                tag: tag.to_vec(),
                ..split.left.clone()
            });
        }
    }
}

/// A place is filled once: after each put of a plan, and after the last one under the old and the new anchor.
#[test]
fn filled_twice() {
    let (mut random, mut seen) = (Random::new(0x7477_6963), Seen::default());
    for depth in 1..=16 {
        let mut list = List::used(depth, &mut random);
        for _ in 0..if depth < 9 { 6 } else { 1 } {
            let index = random.below(list.blocks() as usize) as u64;
            let (mut split, mut put) = (list.plan(index, &mut random), Vec::new());
            while !split.waiting.is_empty() {
                let at = random.below(split.waiting.len());
                put.push(split.waiting[at]);
                split.put_next(at);
                try_again(&split, &put, &mut seen);
            }
            let mut old = split.clone();
            old.left.anchor.clone_from(&list.anchor);
            try_again(&old, &put, &mut seen);
            list.accept_split(split, &mut random);
        }
    }
    println!("filled twice: {seen:?}");
    assert!(seen.accepted == 0 && seen.refused >= 1_000, "{seen:?}");
}

/// A put takes any tag, and the check of the finished card names the node that got another.
#[test]
fn wrong_tags() {
    let mut random = Random::new(0x7772_6f6e);
    for depth in 1..=6 {
        let list = List::used(depth, &mut random);
        for index in 0..list.blocks() {
            for wrong in 0..2 * depth as usize {
                let mut split = list.plan(index, &mut random);
                let (node, tag) = &mut split.waiting[wrong];
                tag[random.below(16)] ^= 1 << random.below(8);
                let node = *node;
                while !split.waiting.is_empty() {
                    split.put_next(random.below(split.waiting.len()));
                }
                let mut check = split.left.clone();
                check.kind = Kind::Check;
                assert_eq!(check.both(), Answer::wrong(node), "{}", check.short());
                let tag = layout::tag(depth, Node(node));
                let mut write = split.asked.clone();
                write.kind = Kind::Write;
                assert_eq!(write.both(), Answer::ACCEPTED);
                let mended = write.card[tag.clone()].to_vec();
                split.left.card[tag].copy_from_slice(&mended);
                split.expect_write();
            }
        }
    }
}
