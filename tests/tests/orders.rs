//! The tags of a plan in every order at depths 1 to 3 and in random orders at depths 3 to 16: each put beside the reference, and
//! what the last one leaves beside the write in one.

use tests::call::{Answer, Kind};
use tests::list::List;
use tests::random::Random;
use tests::split::Split;

/// Puts the tags that wait in every order; gives how many there are.
fn put_in_every_order(split: &Split) -> u64 {
    if split.waiting.is_empty() {
        split.expect_write();
        return 1;
    }
    let puts = 0..split.waiting.len();
    puts.map(|at| {
        let mut next = split.clone();
        next.put_next(at);
        put_in_every_order(&next)
    })
    .sum()
}

/// Of every block, on a fresh card, on a written one, and on one with room for the last nonces.
#[test]
fn every_order() {
    let mut random = Random::new(0x6f72_6465);
    for (depth, orders) in [(1, 2), (2, 24), (3, 720)] {
        let fresh = List::new(depth, &mut random);
        let used = List::used(depth, &mut random);
        let last = List::used(depth, &mut random).moved_before(u64::MAX, 1);
        for list in [fresh, used, last] {
            for index in 0..list.blocks() {
                let split = list.plan(index, &mut random);
                assert_eq!(put_in_every_order(&split), orders);
            }
        }
    }
}

/// How many random orders, so that no depth takes long.
fn orders(depth: u64) -> usize {
    match depth {
        3..=8 => 1_000,
        9..=10 => 500,
        _ => 12 << (16 - depth),
    }
}

/// Split writes in random orders, each on the card that the one before left; the first two rise and fall.
fn run(depth: u64) {
    let mut random = Random::new(0x7368_7566 + depth);
    let mut list = List::used(depth, &mut random);
    for turn in 0..orders(depth) {
        let index = random.below(list.blocks() as usize) as u64;
        let mut split = list.plan(index, &mut random);
        while !split.waiting.is_empty() {
            let at = match turn {
                0 => 0,
                1 => split.waiting.len() - 1,
                _ => random.below(split.waiting.len()),
            };
            split.put_next(at);
        }
        split.expect_write();
        list.accept_split(split, &mut random);
    }
    let mut check = list.call(Kind::Check, 0, &mut random);
    assert_eq!(check.both(), Answer::ACCEPTED);
    list.expect_array(&list.card);
}

#[test]
fn random_orders_to_depth_12() {
    (3..=12).for_each(run);
}

#[test]
fn random_orders_to_depth_16() {
    (13..=16).for_each(run);
}
