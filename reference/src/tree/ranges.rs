//! The parts of the card that a write changes.

use super::layout;
use super::paths;
use super::words::BlockIndex;
use std::ops::Range;

/// The whole entry of each u_y and the tag of each v_y, sorted by offset.
pub fn changed(depth: u64, index: BlockIndex) -> Vec<Range<usize>> {
    let mut ranges = Vec::new();
    for &node in &paths::path(depth, index)[1..] {
        ranges.push(layout::entry(depth, node));
        ranges.push(layout::tag(depth, node.sibling()));
    }
    ranges.sort_by_key(|range| range.start);
    ranges
}

/// How long the range buffer has to be.
pub fn buffer_bytes(depth: u64) -> usize {
    (16 * depth) as usize
}

/// The ranges as a write hands them out: offset and length, 4 bytes each.
pub fn encode(ranges: &[Range<usize>]) -> Vec<u8> {
    let mut bytes = Vec::new();
    for range in ranges {
        bytes.extend((range.start as u32).to_be_bytes());
        bytes.extend((range.len() as u32).to_be_bytes());
    }
    bytes
}

/// The pairs of offset and length in a list.
pub fn decode(list: &[u8]) -> impl Iterator<Item = (u32, u32)> + '_ {
    let number = |bytes: &[u8]| {
        bytes
            .iter()
            .fold(0, |sum, &byte| sum << 8 | u32::from(byte))
    };
    list.chunks_exact(8)
        .map(move |pair| (number(&pair[..4]), number(&pair[4..])))
}
