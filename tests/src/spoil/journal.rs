//! Journals that are not the one that was left beside the card.

use super::pick;
use crate::call::Call;
use crate::list::List;
use crate::random::Random;
use crate::{cards, journals};

/// A journal of another length.
pub fn length(call: &mut Call, random: &mut Random) {
    let wanted = call.journal.len();
    let any = random.below(2 * wanted + 9);
    let lengths = [
        0,
        16,
        wanted.saturating_sub(1),
        wanted + 1,
        wanted + 56,
        wanted.saturating_sub(56),
        any,
    ];
    call.journal.resize(pick(random, &lengths), 0x4e);
}

/// Another journal for a recovery. Two in eleven are made with the key, which nobody else has.
pub fn other(call: &mut Call, list: &List, random: &mut Random) {
    let wanted = journals::bytes(list.depth);
    if call.journal.len() != wanted || call.anchor.len() != list.anchor.len() {
        return;
    }
    let index = call.index % list.blocks();
    match random.below(11) {
        0 => length(call, random),
        1 => call.journal = random.bytes(wanted),
        2 => call.journal.fill(pick(random, &[0, 0xff])),
        3..=4 => ours(call, list, random),
        5 => ours_now(call, list, random),
        6 => mixed(call, list, random),
        7 => flipped(call, random),
        8 => another_cards(call, list, random),
        9 => {
            let way = random.below(journals::STRANGE);
            call.journal = journals::of_no_write(&list.anchor, index, way, random);
        }
        _ => call.journal = journals::any(&list.anchor, index, random),
    }
}

/// One of ours, of last week or lost.
fn ours(call: &mut Call, list: &List, random: &mut Random) {
    if !list.journals.is_empty() {
        let journal = &list.journals[random.below(list.journals.len())];
        call.journal.clone_from(journal);
    }
}

/// One of ours, with the anchor's root nonce or reserved nonce written into it.
fn ours_now(call: &mut Call, list: &List, random: &mut Random) {
    ours(call, list, random);
    let anchor = &list.anchor;
    let nonce = pick(random, &[cards::root(anchor), cards::reserved(anchor)]);
    call.journal[..8].copy_from_slice(&nonce.to_be_bytes());
}

/// Each byte of one of two of ours, of the one left beside the card, or any.
fn mixed(call: &mut Call, list: &List, random: &mut Random) {
    let (mut first, mut second) = (call.clone(), call.clone());
    ours(&mut first, list, random);
    ours(&mut second, list, random);
    let any = random.bytes(call.journal.len());
    let sources = random.bytes(call.journal.len());
    for (at, source) in sources.into_iter().enumerate() {
        call.journal[at] = match source % 8 {
            0..=2 => first.journal[at],
            3..=5 => second.journal[at],
            6 => continue,
            _ => any[at],
        };
    }
}

/// A bit of it.
fn flipped(call: &mut Call, random: &mut Random) {
    let at = random.below(call.journal.len());
    call.journal[at] ^= 1 << random.below(8);
}

/// The journal of another card at the same root nonce, or this card's with the tag of another key.
fn another_cards(call: &mut Call, list: &List, random: &mut Random) {
    let mut other = list.anchor.clone();
    other[random.below(16)] ^= 1 << random.below(8);
    call.journal = match random.below(2) {
        0 => journals::any(&other, call.index % list.blocks(), random),
        _ => journals::tagged(&other, list.journal[..list.journal.len() - 16].to_vec()),
    };
}
