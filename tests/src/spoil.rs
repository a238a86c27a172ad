//! What whoever has the card, and software that is wrong, may hand to a call instead.

use crate::call::{Call, Kind};
use crate::list::List;
use crate::random::Random;
use crate::{cards, plans};
use reference::tree::{layout, paths, BlockIndex, Node};

mod anchor;
mod journal;

/// One of several.
fn pick<T: Copy>(random: &mut Random, choices: &[T]) -> T {
    choices[random.below(choices.len())]
}

/// Alters something of the call, most often the card, or now and then what only this call has.
pub fn any(call: &mut Call, list: &List, random: &mut Random) {
    match (call.kind, random.below(6)) {
        (Kind::Plan, 0) => plan_lengths(call, random),
        (Kind::Put, 0..=1) => put(call, list.depth, random),
        (Kind::Journalled, 0) => journal::length(call, random),
        (Kind::Journalled, 1) => anchor::raised_length(call, random),
        (Kind::Recover, 0..=3) => journal::other(call, list, random),
        _ => shared(call, list, random),
    }
}

/// Alters something that most calls have.
fn shared(call: &mut Call, list: &List, random: &mut Random) {
    match random.below(12) {
        0..=4 => card(call, list, random),
        5 => card_length(call, random),
        6 => call.index = beyond(call.index, list.depth, random),
        7 => block_length(call, random),
        8 => ranges_length(call, list.depth, random),
        9 => anchor::length(call, random),
        10 => anchor::depth(call, random),
        _ => anchor::numbers(call, list, random),
    }
}

/// Another card of the same length; one already altered to another length stays as it is.
pub fn card(call: &mut Call, list: &List, random: &mut Random) {
    if call.card.len() != list.card.len() {
        return;
    }
    let old = &list.old[random.below(list.old.len())];
    match random.below(10) {
        0 => call.card = old.clone(),
        1 => call.card = random.bytes(list.card.len()),
        2..=3 => old_nodes(call, old, list.depth, random),
        4 => old_path(call, old, list, random),
        5 => swapped_nodes(call, list.depth, random),
        6..=7 => flipped_near_path(call, list, random),
        _ => flipped_anywhere(call, random),
    }
}

/// Some nodes of an old card among the others.
fn old_nodes(call: &mut Call, old: &[u8], depth: u64, random: &mut Random) {
    for _ in 0..=random.below(4) {
        let node = any_node(depth, random);
        cards::place(&mut call.card, old, depth, node);
    }
}

/// The path of the block, or its lower part, with or without siblings, from an old card.
fn old_path(call: &mut Call, old: &[u8], list: &List, random: &mut Random) {
    let index = BlockIndex(call.index % list.blocks());
    let with_siblings = random.below(2) == 0;
    let above = random.below(list.depth as usize);
    for &node in &paths::path(list.depth, index)[1 + above..] {
        cards::place(&mut call.card, old, list.depth, node);
        if with_siblings {
            cards::place(&mut call.card, old, list.depth, node.sibling());
        }
    }
}

/// Two nodes of one kind in each other's place.
fn swapped_nodes(call: &mut Call, depth: u64, random: &mut Random) {
    let node = any_node(depth, random);
    let other = if random.below(2) == 0 {
        node.sibling()
    } else {
        any_node(depth, random)
    };
    let (from, to) = (layout::entry(depth, node), layout::entry(depth, other));
    if from.len() == to.len() {
        let copy = call.card.clone();
        call.card[to.clone()].copy_from_slice(&copy[from.clone()]);
        call.card[from].copy_from_slice(&copy[to]);
    }
}

/// A node that has an entry.
fn any_node(depth: u64, random: &mut Random) -> Node {
    let count = 2 * layout::blocks(depth) - 2;
    Node(2 + random.below(count as usize) as u64)
}

/// A bit in a node of the path or in a sibling.
fn flipped_near_path(call: &mut Call, list: &List, random: &mut Random) {
    let index = BlockIndex(call.index % list.blocks());
    let path = paths::path(list.depth, index);
    let mut node = path[1 + random.below(list.depth as usize)];
    if random.below(2) == 0 {
        node = node.sibling();
    }
    let entry = layout::entry(list.depth, node);
    call.card[entry.start + random.below(entry.len())] ^= 1 << random.below(8);
}

/// Up to three bits anywhere.
fn flipped_anywhere(call: &mut Call, random: &mut Random) {
    for _ in 0..=random.below(3) {
        let at = random.below(call.card.len());
        call.card[at] ^= 1 << random.below(8);
    }
}

/// A card of another length.
fn card_length(call: &mut Call, random: &mut Random) {
    let length = call.card.len();
    let other = match random.below(7) {
        0 => 0,
        1 => length + 1,
        2 => length.saturating_sub(1),
        3 => 2 * length + 48,
        4 => length.saturating_sub(48) / 2,
        5 => length + random.below(200),
        _ => random.below(length + 1),
    };
    call.card.resize(other, 0xee);
}

/// A block number that is not on the card, or not always.
fn beyond(index: u64, depth: u64, random: &mut Random) -> u64 {
    let blocks = layout::blocks(depth);
    let within = index % blocks;
    match random.below(8) {
        0 => blocks,
        1 => blocks + within,
        2 => blocks + random.below(1 << 20) as u64,
        3 => (1 << 32) + within,
        4 => u64::MAX,
        5 => u64::MAX - within,
        6 => (1 << 63) + within,
        _ => random.word() >> random.below(64),
    }
}

/// A buffer or a block of another length.
fn block_length(call: &mut Call, random: &mut Random) {
    let any = random.below(200);
    let length = pick(random, &[0, 1, 16, 63, 65, 80, 128, 320, any]);
    call.block.resize(length, 0x6b);
}

/// A range buffer that is too short, just long enough or longer.
fn ranges_length(call: &mut Call, depth: u64, random: &mut Random) {
    let wanted = 16 * depth as usize;
    let any = random.below(2 * wanted);
    let length = pick(
        random,
        &[0, 1, wanted / 2, wanted - 8, wanted - 1, wanted, any],
    );
    call.ranges.resize(length, 0x2d);
}

/// Room of another length for a plan or its messages.
fn plan_lengths(call: &mut Call, random: &mut Random) {
    let any = random.below(800);
    let length = pick(random, &[0, 8, 23, 25, 112, 655, 657, any]);
    match random.below(2) {
        0 => call.plan.resize(length, 0x2d),
        _ => call.messages.resize(length, 0x2d),
    }
}

/// Another node, another plan or another tag, or one of another length.
fn put(call: &mut Call, depth: u64, random: &mut Random) {
    if call.plan.len() != 24 {
        return;
    }
    let (index, filled) = (plans::index(&call.plan), plans::filled(&call.plan));
    let any = random.below(64);
    let length = pick(random, &[0, 8, 15, 17, 23, 25, 48, any]);
    match random.below(8) {
        0..=1 => call.node = node(call.node, depth, random),
        2 => call.plan = plans::plan(beyond(index, depth, random), random.word(), filled),
        3 => {
            let above = !0 << (2 * depth);
            let other = pick(random, &[0, !0, !filled, filled | above]);
            plans::set_filled(&mut call.plan, other);
        }
        4 => call.plan = random.bytes(24),
        5 => call.plan.resize(length, 0x2d),
        6 => call.tag.resize(length, 0x2d),
        _ => call.tag = random.bytes(16),
    }
}

/// Another node: of the card, or not.
fn node(node: u64, depth: u64, random: &mut Random) -> u64 {
    let choices = [
        0,
        1,
        node / 2,
        node << 1,
        node ^ 2,
        node ^ 1 << 32,
        node ^ 1 << 63,
        u64::MAX,
        any_node(depth, random).0,
        any_node(depth, random).0,
        random.word(),
    ];
    pick(random, &choices)
}
