//! Journals in their bytes: where their parts lie, and journals that whoever has the key can make.

use crate::random::Random;
use crate::{cards, proved};
use reference::tree::{layout, ranges, BlockIndex};
use std::ops::Range;

/// The length of a journal.
pub fn bytes(depth: u64) -> usize {
    56 * depth as usize + 80
}

/// Where the list of ranges lies, behind the root nonce.
pub fn list(depth: u64) -> Range<usize> {
    8..8 + 16 * depth as usize
}

/// How many new bytes a write has.
pub fn news(depth: u64) -> usize {
    40 * depth as usize + 56
}

/// The ranges of a list.
pub fn ranges(list: &[u8]) -> Vec<Range<usize>> {
    let number = |bytes: &[u8]| bytes.iter().fold(0, |sum, &byte| 256 * sum + byte as usize);
    let range = |pair: &[u8]| {
        let (start, length) = (number(&pair[..4]), number(&pair[4..]));
        start..start + length
    };
    list.chunks(8).map(range).collect()
}

/// The list of the write of that block.
pub fn list_of(depth: u64, index: u64) -> Vec<u8> {
    ranges::encode(&ranges::changed(depth, BlockIndex(index)))
}

/// The bytes of the card in the ranges of that list, end to end.
pub fn cut_out(card: &[u8], list: &[u8]) -> Vec<u8> {
    let parts = ranges(list).into_iter().map(|range| &card[range]);
    parts.flatten().copied().collect()
}

/// The journal of these parts, with the tag that the anchor's key gives it.
pub fn made(anchor: &[u8], root: u64, list: &[u8], news: &[u8]) -> Vec<u8> {
    let journal = [&root.to_be_bytes()[..], list, news].concat();
    tagged(anchor, journal)
}

/// The message with its tag under the anchor's key behind it.
pub fn tagged(anchor: &[u8], mut message: Vec<u8>) -> Vec<u8> {
    let key = anchor[..16].try_into().expect("a key of 16 bytes");
    message.extend(proved::tag(key, &message));
    message
}

/// Whether the tag is right under the anchor's key.
pub fn right(anchor: &[u8], journal: &[u8]) -> bool {
    let message = journal[..journal.len() - 16].to_vec();
    tagged(anchor, message) == journal
}

/// A journal with the anchor's root nonce and a right tag, the list of a block and any bytes: only the key makes it.
pub fn any(anchor: &[u8], index: u64, random: &mut Random) -> Vec<u8> {
    let depth = cards::depth(anchor);
    let news = random.bytes(news(depth));
    made(anchor, cards::root(anchor), &list_of(depth, index), &news)
}

/// How many ways there are to make a list that is no write's.
pub const STRANGE: usize = 8;

/// A list that is no write's: zeros, a start or a length beside, two ranges exchanged, the last one two leaves on, parts of two
/// lists, one range twice, and any bytes.
pub fn strange(depth: u64, index: u64, way: usize, random: &mut Random) -> Vec<u8> {
    let mut list = list_of(depth, index);
    let end = list.len();
    match way {
        0 => list.fill(0),
        1 => list[8 * random.below(end / 8) + 3] ^= 1 << random.below(3),
        2 => list[end - 1] ^= 1 << random.below(8),
        3 => list.rotate_left(8),
        4 => {
            let start = (ranges(&list).last().expect("a range").start + 160) as u32;
            list[end - 8..end - 4].copy_from_slice(&start.to_be_bytes());
        }
        5 if depth > 1 => {
            let other = list_of(depth, index ^ (1 << (depth - 1)));
            list[..16].copy_from_slice(&other[..16]);
        }
        6 => list.copy_within(8..16, 0),
        _ => list = random.bytes(end),
    }
    list
}

/// A journal that has the anchor's root nonce, a right tag and a list that is no write's: only the key makes it.
pub fn of_no_write(anchor: &[u8], index: u64, way: usize, random: &mut Random) -> Vec<u8> {
    let depth = cards::depth(anchor);
    let list = strange(depth, index % layout::blocks(depth), way, random);
    let news = random.bytes(news(depth));
    made(anchor, cards::root(anchor), &list, &news)
}

#[cfg(test)]
mod tests {
    use super::*;

    /// A strange list is the list of no block, in none of its ways.
    #[test]
    fn strange_lists() {
        let mut random = Random::new(0x7374_7261);
        for depth in 1..=5 {
            let lists: Vec<_> = (0..1 << depth).map(|index| list_of(depth, index)).collect();
            for (index, way) in
                (0..1 << depth).flat_map(|index| (0..STRANGE).map(move |way| (index, way)))
            {
                for _ in 0..20 {
                    let list = strange(depth, index, way, &mut random);
                    assert!(list.len() == 16 * depth as usize && !lists.contains(&list));
                }
            }
        }
    }
}
