//! The count of AES calls that read, write, plan, check and wipe carry: document 02's numbers, to which the reference's counter
//! and the probe are held.

use bindings::count;
use reference::host;
use reference::tree::{layout, Anchor, Node};
use tests::call::{Answer, Call, Kind};
use tests::cards;
use tests::guarded::Guarded;
use tests::limits::{self, checked, Failing, Test, WAYS};
use tests::list::List;
use tests::random::Random;

/// What the subkeys take, and the message of an inner node and of a leaf.
const SUBKEYS: u64 = 1;
const INNER: u64 = 2;
const LEAF: u64 = 5;

/// What an accepted call carries at depth n.
fn accepted(kind: Kind, n: u64) -> u64 {
    match kind {
        Kind::Read => 2 * n + 4,
        Kind::Write => 8 * n + 8,
        Kind::Plan => 4 * n + 2,
        Kind::Check | Kind::Wipe => 7 * (1 << n) - 3,
        _ => panic!("a {kind:?} carries none"),
    }
}

/// The calls that carry a count.
const KINDS: [Kind; 5] = [Kind::Read, Kind::Write, Kind::Plan, Kind::Check, Kind::Wipe];

/// What a call refused at that node carries: the subkeys, and each checked message up to the wrong one, that one too.
fn refused_at(call: &Call, node: u64) -> u64 {
    let depth = cards::depth(&call.anchor);
    let nodes = checked(call.kind, depth, call.index);
    let place = nodes.iter().position(|one| one.0 == node);
    let blocks = |one: &Node| match one.0 < 1 << depth {
        true => INNER,
        false => LEAF,
    };
    let messages = nodes[..=place.expect("a checked node")].iter();
    SUBKEYS + messages.map(blocks).sum::<u64>()
}

/// Expects the answer, and of reference and probe the count that belongs to it.
#[track_caller]
fn expect(call: &Call, answer: Answer) {
    let due = match answer.number {
        0 => accepted(call.kind, cards::depth(&call.anchor)),
        8 => refused_at(call, answer.node),
        _ => 0,
    };
    let (counted, probe) = call.clone().counted();
    assert_eq!(counted.count, due, "the reference: {}", call.short());
    assert_eq!(probe, due, "the probe: {}", call.short());
    assert_eq!(call.clone().both(), answer, "{}", call.short());
}

/// Reads, writes and plans of these blocks, a check and a wipe.
fn calls(blocks: &[u64]) -> Vec<(Kind, u64)> {
    let mut calls = vec![(Kind::Check, 0), (Kind::Wipe, 0)];
    for kind in [Kind::Read, Kind::Write, Kind::Plan] {
        calls.extend(blocks.iter().map(|&index| (kind, index)));
    }
    calls
}

/// Accepted calls of every depth, on a written and on a wiped card: of every block of small cards, else of the first, the last
/// and some between.
#[test]
fn every_depth() {
    let mut random = Random::new(0x6465_7074);
    for depth in 1..=16 {
        let mut list = List::used(depth, &mut random);
        let blocks: Vec<u64> = match depth {
            1..=6 => (0..list.blocks()).collect(),
            _ => {
                let some = (0..20).map(|_| random.below(list.blocks() as usize) as u64);
                some.chain([0, list.blocks() - 1]).collect()
            }
        };
        for wiped in [false, true] {
            if wiped {
                list.wipe(&mut random);
            }
            for (kind, index) in calls(&blocks) {
                expect(&list.call(kind, index, &mut random), Answer::ACCEPTED);
            }
        }
    }
}

/// Spoils the tag of a node, its label, or its tag and that of each node checked after it.
fn spoil(call: &mut Call, depth: u64, node: Node, way: usize, order: &[Node]) {
    match way {
        0 => cards::spoil_tag(&mut call.card, depth, node),
        1 => call.card[layout::label(depth, node).start] ^= 1,
        _ => {
            let before = order.iter().take_while(|&&one| one != node).count();
            for &wrong in &order[before..] {
                cards::spoil_tag(&mut call.card, depth, wrong);
            }
        }
    }
}

/// Every node of small cards wrong, alone or with all that are checked after it, in every read, write and plan and in a check:
/// refused there, or accepted where the call does not look at it. A wipe looks at none.
#[test]
fn every_wrong_node() {
    let mut random = Random::new(0x7772_6f6e);
    let (mut refused, mut passed) = (0, 0);
    for depth in 1..=5 {
        let list = List::used(depth, &mut random);
        let blocks: Vec<u64> = (0..list.blocks()).collect();
        for (kind, index) in calls(&blocks) {
            let order = checked(kind, depth, index);
            for node in layout::nodes(depth) {
                let seen = order.contains(&node);
                for way in 0..3 {
                    let mut call = list.call(kind, index, &mut random);
                    spoil(&mut call, depth, node, way, &order);
                    match seen {
                        true => expect(&call, Answer::wrong(node.0)),
                        false => expect(&call, Answer::ACCEPTED),
                    }
                }
                refused += u64::from(seen);
                passed += u64::from(!seen);
            }
        }
    }
    println!("wrong nodes: {refused} found and {passed} not looked at, each in three ways");
    assert!(refused >= 700 && passed >= 4_000, "{refused}, {passed}");
}

/// Every set of the call's tests, those of the lengths that come first left out.
fn sets(kind: Kind) -> Vec<Vec<Test>> {
    let tests = limits::tests_of(kind).into_iter();
    let mut sets = vec![Vec::new()];
    for test in tests.filter(|test| !test.comes_first()) {
        let with: Vec<Vec<Test>> = sets
            .iter()
            .map(|set| [&set[..], &[test]].concat())
            .collect();
        sets.extend(with);
    }
    sets
}

/// The tests to fail, in each of the ways.
fn ways(set: &[Test]) -> impl Iterator<Item = Vec<Failing>> + '_ {
    (0..WAYS).map(|way| set.iter().map(|&test| (test, way)).collect())
}

/// Every set of limits that fail, with a wrong tag and without: one that fails leaves no count.
#[test]
fn limits_that_fail() {
    let mut random = Random::new(0x6c69_6d69);
    let mut answers = [0; 9];
    for depth in 1..=4 {
        let list = List::used(depth, &mut random);
        for kind in KINDS {
            let sets = sets(kind);
            let failing = sets.iter().flat_map(|set| ways(set));
            for failing in failing.filter(|failing| limits::possible(depth, failing)) {
                let (call, answer) = limits::call(&list, kind, &failing, &mut random);
                expect(&call, answer);
                answers[answer.number as usize] += 1;
            }
        }
    }
    println!("accepted, and refusals 1 to 8: {answers:?}");
    assert!(answers.iter().all(|&count| count >= 24), "{answers:?}");
}

/// Makes the call through the probe with a key of its own, on bytes between guards.
fn probe(call: &mut Call, key: &[u8]) -> u64 {
    let Anchor {
        depth,
        root,
        reserved,
        ..
    } = cards::parsed(&call.anchor);
    let anchor = (key, depth, root, reserved);
    let mut card = Guarded::holding(&call.card);
    let mut block = Guarded::holding(&call.block);
    let mut ranges = Guarded::holding(&call.ranges);
    let mut messages = Guarded::holding(&call.messages);
    let (on, of, into) = (card.part(), block.part(), ranges.part());
    let count = match call.kind {
        Kind::Read => count::read(anchor, on, call.index, of),
        Kind::Write => count::write(anchor, on, call.index, of, into),
        Kind::Plan => count::plan(anchor, on, call.index, of, into, messages.part()),
        Kind::Check => count::check(anchor, on),
        Kind::Wipe => count::wipe(anchor, on),
        _ => panic!("a {:?} has no probe", call.kind),
    };
    call.card = card.into_part("card");
    call.block = block.into_part("block");
    call.ranges = ranges.into_part("ranges");
    call.messages = messages.into_part("messages");
    count
}

/// A key of another length, also one that begins with the right key: no count, and nothing changes.
#[test]
fn keys_of_another_length() {
    let mut random = Random::new(0x6b65_7973);
    for depth in 1..=4 {
        let list = List::used(depth, &mut random);
        let key = [&list.anchor[..16], &random.bytes(48)].concat();
        for kind in KINDS {
            let call = list.call(kind, 1, &mut random);
            assert_eq!(probe(&mut call.clone(), &key[..16]), accepted(kind, depth));
            for length in (0..=64).filter(|&length| length != 16) {
                let what = format!("{kind:?}, a key of {length} bytes");
                expect_none(&call, &key[..length], &what);
            }
        }
    }
}

/// Expects no count, and that nothing changes.
fn expect_none(call: &Call, key: &[u8], what: &str) {
    let mut after = call.clone();
    assert_eq!(probe(&mut after, key), 0, "{what}");
    after.expect_bytes(call, what);
}

/// A plan with room for its messages of another length, also where they would fit: no count, and nothing changes.
#[test]
fn messages_of_another_length() {
    let mut random = Random::new(0x6d65_7373);
    for depth in [1, 4, 10] {
        let list = List::used(depth, &mut random);
        for length in (0..1_400).filter(|&length| length != host::MESSAGES_BYTES) {
            let mut call = list.call(Kind::Plan, 1, &mut random);
            call.messages.resize(length, 0x1d);
            let what = format!("depth {depth}, messages of {length} bytes");
            expect_none(&call, &list.anchor[..16], &what);
        }
    }
}
