//! Anchors of another length, with another depth, key or nonces.

use super::pick;
use crate::call::Call;
use crate::cards;
use crate::list::List;
use crate::random::Random;

/// An anchor of another length.
pub fn length(call: &mut Call, random: &mut Random) {
    let any = random.below(80);
    let length = pick(random, &[0, 16, 32, 39, 41, 48, 80, any]);
    call.anchor.resize(length, 0);
}

/// Room of another length for the raised anchor.
pub fn raised_length(call: &mut Call, random: &mut Random) {
    let any = random.below(80);
    let length = pick(random, &[0, 16, 32, 39, 41, 48, 80, any]);
    call.raised.resize(length, 0);
}

/// An anchor with another depth, mostly one beyond the limit.
pub fn depth(call: &mut Call, random: &mut Random) {
    if call.anchor.len() != 40 {
        return;
    }
    let depth = cards::depth(&call.anchor);
    let any = random.word() >> random.below(64);
    let within = 1 + random.below(16) as u64;
    let beyond = [
        0,
        17,
        18,
        64,
        depth.wrapping_add(1 << 8),
        depth.wrapping_add(1 << 32),
        1 << 63,
        u64::MAX,
        any,
        within,
        within,
        within,
    ];
    cards::set_depth(&mut call.anchor, pick(random, &beyond));
}

/// An anchor with another key, root nonce or reserved nonce; the card is made right for it in half of the cases. Under the list's
/// own anchor that would be a forgery.
pub fn numbers(call: &mut Call, list: &List, random: &mut Random) {
    if call.anchor.len() != 40 {
        return;
    }
    let depth = list.depth;
    let (root, last) = (cards::root(&call.anchor), cards::last_root(depth));
    let near_the_end = last - depth * random.below(3) as u64;
    let choices = [
        root.wrapping_add(1),
        root.wrapping_add(depth),
        root.wrapping_sub(depth),
        root,
        last,
        near_the_end,
        near_the_end,
        near_the_end - 1,
        u64::MAX,
        random.word(),
        random.word() / depth * depth,
    ];
    let root = pick(random, &choices);
    cards::set_root(&mut call.anchor, root);
    let reserved = reserved_with(&call.anchor, root, pick(random, &choices), random);
    cards::set_reserved(&mut call.anchor, reserved);
    if random.below(8) == 0 {
        call.anchor[random.below(16)] ^= 1 << random.below(8);
    }
    let fits = cards::depth(&call.anchor) == depth && call.card.len() == list.card.len();
    if fits && call.anchor != list.anchor && random.below(2) == 0 {
        cards::restamp(&call.anchor, &mut call.card);
    }
}

/// A reserved nonce beside that root nonce: most often the same, or that many writes on; or another one.
fn reserved_with(anchor: &[u8], root: u64, any: u64, random: &mut Random) -> u64 {
    let depth = cards::depth(anchor);
    let choices = [
        root,
        root,
        root,
        root.wrapping_add(depth),
        root.wrapping_sub(depth),
        root.wrapping_add(1),
        cards::reserved(anchor),
        cards::last_root(depth.max(1)),
        any,
    ];
    pick(random, &choices)
}
