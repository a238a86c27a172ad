//! Root and reserved nonces that fail the tests 2 and 7, one of them, or none.

use super::{tests_of, Test};
use crate::call::{Call, Kind};
use crate::cards;
use crate::random::Random;

/// Gives the anchor nonces that fail these tests and no other, and the card tags that are right for them.
pub fn set(call: &mut Call, multiple: Option<usize>, room: Option<usize>, random: &mut Random) {
    let depth = cards::depth(&call.anchor);
    let needs_room = tests_of(call.kind).contains(&Test::NoncesLeft);
    let (root, reserved) = match (multiple, room) {
        (None, None) if call.kind == Kind::Format => (random.word(), random.word()),
        (None, None) => fitting(depth, needs_room, random),
        (None, Some(way)) => spent(depth, way, random),
        (Some(way), None) if depth == 1 => below(way, random),
        (Some(way), None) => wrong(depth, way, random),
        (Some(way), Some(other)) => wrong_and_spent(depth, way, other),
    };
    cards::set_root(&mut call.anchor, root);
    cards::set_reserved(&mut call.anchor, reserved);
    if call.kind != Kind::Format {
        cards::restamp(&call.anchor, &mut call.card);
    }
}

/// A root nonce that goes with that reserved one: the same, one write before, or any multiple.
fn root_with(depth: u64, reserved: u64, random: &mut Random) -> u64 {
    let writes = reserved / depth;
    let before = match random.below(4) {
        0..=1 => 0,
        2 => 1,
        _ => random.word() % writes,
    };
    reserved - before * depth
}

/// Both right, near the end; where room is needed, for a write at least.
fn fitting(depth: u64, needs_room: bool, random: &mut Random) -> (u64, u64) {
    let before = u64::from(needs_room) + random.below(3) as u64;
    let reserved = cards::last_root(depth) - depth * before;
    (root_with(depth, reserved, random), reserved)
}

/// Both right, but after the reserved one no write fits, whatever fits after the root nonce.
fn spent(depth: u64, way: usize, random: &mut Random) -> (u64, u64) {
    let last = cards::last_root(depth);
    let root = match way {
        0 => last,
        1 => last - depth,
        2 => 0,
        _ => root_with(depth, last, random),
    };
    (root, last)
}

/// At depth 1 the only way: the reserved nonce is the lower.
fn below(way: usize, random: &mut Random) -> (u64, u64) {
    let root = u64::MAX - random.below(3) as u64;
    let reserved = [root - 1, root - 2, root - 3, root / 2, 1, 0];
    (root, reserved[way])
}

/// One of them no multiple, both, or the reserved one the lower; a write would fit.
fn wrong(depth: u64, way: usize, random: &mut Random) -> (u64, u64) {
    let high = cards::last_root(depth) - depth * (1 + random.below(3) as u64);
    let low = high - depth * (1 + random.below(3) as u64);
    let beside = 1 + random.below(depth as usize - 1) as u64;
    [
        (low + beside, high),
        (low, high - depth + beside),
        (low - depth + beside, high - depth + beside),
        (high, high - depth),
        (low, 0),
        (high + beside, high),
    ][way]
}

/// The same where no write fits after the reserved one, which is then no multiple or the last.
fn wrong_and_spent(depth: u64, way: usize, other: usize) -> (u64, u64) {
    let last = cards::last_root(depth);
    let beside: Vec<u64> = (u64::MAX - depth + 1..=u64::MAX)
        .filter(|&nonce| nonce != last)
        .collect();
    let beside = beside[(way + other) % beside.len()];
    [
        (last - 1, last),
        (last - depth, beside),
        (beside - depth, beside),
        (beside.max(last), beside.min(last)),
        (0, beside),
        (beside, beside),
    ][way]
}

#[cfg(test)]
mod tests {
    use super::*;
    use crate::limits::WAYS;

    /// Whether test 2 fails, and test 7.
    fn fails(depth: u64, (root, reserved): (u64, u64)) -> (bool, bool) {
        let multiples = root.is_multiple_of(depth) && reserved.is_multiple_of(depth);
        let room = reserved.checked_add(depth).is_some();
        (!multiples || reserved < root, !room)
    }

    /// Each way fails what it says, and nothing else.
    #[test]
    fn as_said() {
        let mut random = Random::new(0x6e6f_6e63);
        for depth in 1..=16 {
            for (way, other) in (0..WAYS).flat_map(|way| (0..WAYS).map(move |other| (way, other))) {
                let random = &mut random;
                assert_eq!(fails(depth, fitting(depth, true, random)), (false, false));
                assert_eq!(fails(depth, spent(depth, way, random)), (false, true));
                let nonces = match depth {
                    1 => below(way, random),
                    _ => wrong(depth, way, random),
                };
                assert_eq!(fails(depth, nonces), (true, false));
                if depth > 1 {
                    let nonces = wrong_and_spent(depth, way, other);
                    assert_eq!(
                        fails(depth, nonces),
                        (true, true),
                        "{depth}, {way}, {other}"
                    );
                }
            }
        }
    }
}
