//! The last nonces, used by writes, wipes and lost attempts.

use tests::call::{Answer, Kind};
use tests::cards;
use tests::list::List;
use tests::random::Random;

/// Writes, wipes and lost attempts up to the last nonce: then every write and wipe is refused with 7, and reads and checks go on.
#[test]
fn nonces_spent() {
    let mut random = Random::new(0x7370_656e);
    for depth in 1..=16 {
        let rooms = if depth < 9 { 4 } else { 1 };
        for (room, lost) in (1..=rooms).flat_map(|room| (0..=room).map(move |lost| (room, lost))) {
            let list = List::new(depth, &mut random).moved_before(u64::MAX, room);
            let mut list = list.lose_some(lost as usize);
            for turn in lost + 1..=room {
                match turn == room || turn % 2 == 0 {
                    true => list.wipe(&mut random),
                    false => list.write(1, &mut random),
                }
            }
            let last = cards::last_root(depth);
            let root = if lost < room {
                last
            } else {
                last - room * depth
            };
            assert_eq!(cards::reserved(&list.anchor), last);
            assert_eq!(cards::root(&list.anchor), root);
            expect_spent(&mut list, &mut random);
        }
    }
}

/// What needs a new nonce is refused with 7, and nothing else is.
fn expect_spent(list: &mut List, random: &mut Random) {
    for (kind, number) in [
        (Kind::Wipe, 7),
        (Kind::Write, 7),
        (Kind::Plan, 7),
        (Kind::Journalled, 7),
        (Kind::Read, 0),
        (Kind::Check, 0),
        (Kind::Recover, 0),
    ] {
        let before = list.call(kind, 1, random);
        let mut call = before.clone();
        let answer = call.both();
        assert_eq!(answer, Answer::plain(number), "{}", call.short());
        list.judge(&before, &call, answer);
    }
}
