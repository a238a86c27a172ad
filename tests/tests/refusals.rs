//! Every refusal of every call, alone and with others: the first test that fails gives the answer, and no byte changes.

use reference::cmac::Cmac;
use reference::host;
use reference::tree::{layout, messages, Anchor};
use tests::call::{Answer, Call, Kind};
use tests::cards;
use tests::limits::{self, Failing, WAYS};
use tests::list::List;
use tests::random::Random;
use tests::tally::Tally;

const DEPTHS: std::ops::RangeInclusive<u64> = 1..=4;

/// Each set of tests comes up this often, in ways chosen at random.
const REPEATS: usize = 20;

/// Expects the answer of the first of these tests. A refused call leaves every byte as it was.
fn expect(list: &List, kind: Kind, failing: &[Failing], random: &mut Random, tally: &mut Tally) {
    let (mut call, expected) = limits::call(list, kind, failing, random);
    let what = format!("{}, failing {failing:?}", call.short());
    assert_eq!(call.both(), expected, "{what}");
    tally.count(&call, expected);
}

/// Each test alone and each two together, each in all ways.
#[test]
fn singles_and_pairs() {
    let (mut random, mut tally) = (Random::new(0x70616972), Tally::default());
    for depth in DEPTHS {
        let list = List::used(depth, &mut random);
        for kind in Kind::ALL {
            let all: Vec<Failing> = limits::tests_of(kind)
                .iter()
                .flat_map(|&test| (0..WAYS).map(move |way| (test, way)))
                .filter(|&one| limits::possible(depth, &[one]))
                .collect();
            for (at, &one) in all.iter().enumerate() {
                expect(&list, kind, &[one], &mut random, &mut tally);
                let others = all[at..].iter().filter(|other| other.0 != one.0);
                for &other in others.filter(|&&other| limits::possible(depth, &[one, other])) {
                    expect(&list, kind, &[one, other], &mut random, &mut tally);
                }
            }
        }
    }
    tally.print("singles and pairs");
}

/// Every set of tests, the empty one among them: then the call is accepted.
#[test]
fn every_set() {
    let (mut random, mut tally) = (Random::new(0x736574), Tally::default());
    for depth in DEPTHS {
        let list = List::used(depth, &mut random);
        for kind in Kind::ALL {
            let tests = limits::tests_of(kind);
            for set in 0..1 << tests.len() {
                for _ in 0..REPEATS {
                    let chosen = (0..tests.len()).filter(|at| set >> at & 1 == 1);
                    let failing: Vec<Failing> =
                        chosen.map(|at| (tests[at], random.below(WAYS))).collect();
                    if limits::possible(depth, &failing) {
                        expect(&list, kind, &failing, &mut random, &mut tally);
                    }
                }
            }
        }
    }
    tally.print("every set");
    tally.expect_each(48);
}

/// A whole card of depth 17, right in every tag, for which every other limit is kept: the depth alone refuses it.
#[test]
fn only_the_depth() {
    let depth = 17;
    let anchor = Anchor {
        key: [0x2a; 16],
        depth,
        root: 0,
        reserved: 0,
    };
    let (cmac, mut card) = (Cmac::new(&anchor.key), vec![0; layout::card_bytes(depth)]);
    for node in layout::nodes(depth) {
        messages::put_tag(&cmac, &anchor, &mut card, node);
    }
    let mut call = lent(Call::on(cards::anchor(&anchor.key, depth, 0, 0), card));
    call.block = vec![3; 64];
    call.ranges = vec![4; 16 * 17];
    for kind in Kind::ALL {
        call.kind = kind;
        assert_eq!(call.both(), Answer::plain(1), "{kind:?}");
    }
}

/// The call with all that only C has in bytes, and node 2 to put a tag at.
fn lent(call: Call) -> Call {
    Call {
        plan: vec![0; host::PLAN_BYTES],
        messages: vec![5; host::MESSAGES_BYTES],
        node: 2,
        tag: vec![6; layout::TAG_BYTES],
        raised: vec![7; host::ANCHOR_BYTES],
        journal: vec![8; 56 * 17 + 80],
        ..call
    }
}

/// Depth 0 by its own formula: 56 bytes and one block.
#[test]
fn depth_0() {
    let mut call = lent(Call::on(cards::anchor(&[0x2a; 16], 0, 0, 0), vec![0; 56]));
    call.block = vec![3; 64];
    for kind in Kind::ALL {
        call.kind = kind;
        assert_eq!(call.both(), Answer::plain(1), "{kind:?}");
    }
}

/// Nothing at all is refused for the anchor's length; a bare anchor, with what else only C has in bytes, for its depth.
#[test]
fn empty_slices() {
    let nothing = Call::on(Vec::new(), Vec::new());
    for kind in Kind::ALL {
        let mut call = Call {
            kind,
            ..nothing.clone()
        };
        assert_eq!(call.both(), Answer::plain(5), "{kind:?}");
        call.anchor = vec![0; 40];
        let bare = matches!(kind, Kind::Plan | Kind::Put | Kind::Journalled);
        let number = if bare { 5 } else { 1 };
        assert_eq!(call.both(), Answer::plain(number), "{kind:?}");
        let mut call = lent(call);
        assert_eq!(call.both(), Answer::plain(1), "{kind:?}");
    }
}

/// Every other length of what only C has in bytes is refused 5, in each call that is given it.
#[test]
fn every_other_length() {
    let mut random = Random::new(0x6c65_6e67);
    for depth in DEPTHS {
        let list = List::used(depth, &mut random);
        for kind in [Kind::Plan, Kind::Put, Kind::Journalled] {
            let call = list.call(kind, 1, &mut random);
            let parts: [fn(&mut Call) -> &mut Vec<u8>; 5] = [
                |call| &mut call.anchor,
                |call| &mut call.plan,
                |call| &mut call.messages,
                |call| &mut call.tag,
                |call| &mut call.raised,
            ];
            for part in parts {
                let wanted = part(&mut call.clone()).len();
                for length in (0..2 * wanted).filter(|&length| length != wanted) {
                    let mut other = call.clone();
                    part(&mut other).resize(length, 0x1d);
                    assert_eq!(other.both(), Answer::plain(5), "{}", other.short());
                }
            }
        }
    }
}
