//! Wipes: after every short history each card that has nodes of before among the wiped ones, cards of any bytes, and cards that were
//! stored in part.

use bindings::pat;
use reference::tree::{layout, Node};
use tests::call::{Answer, Call, Kind};
use tests::cards;
use tests::limits::checked;
use tests::list::List;
use tests::random::Random;

/// A step of a short history: a write of that block, or a wipe.
type Step = Option<u64>;

/// A node of one of the old cards.
type Old = (usize, u64);

/// How often each call was accepted and refused, so that the test holds its own reach.
#[derive(Default, Debug)]
struct Seen {
    reads: [u64; 2],
    writes: [u64; 2],
    checks: [u64; 2],
    reads_after: [u64; 2],
}

/// Counts an answer: accepted first, refused second.
fn note(counts: &mut [u64; 2], answer: Answer) {
    counts[usize::from(!answer.accepted())] += 1;
}

/// Every history of at most that many steps.
fn histories(depth: u64, longest: usize) -> Vec<Vec<Step>> {
    let steps: Vec<Step> = (0..layout::blocks(depth)).map(Some).chain([None]).collect();
    let mut all = vec![Vec::new()];
    let mut last = all.clone();
    for _ in 0..longest {
        let longer = |history: &Vec<Step>| {
            let history = history.clone();
            let with = move |&step: &Step| [&history[..], &[step]].concat();
            steps.iter().map(with).collect::<Vec<_>>()
        };
        last = last.iter().flat_map(longer).collect();
        all.extend(last.clone());
    }
    all
}

/// A list after a history and a wipe, and every card of before.
fn wiped(depth: u64, history: &[Step], random: &mut Random) -> (List, Vec<Vec<u8>>) {
    let mut list = List::new(depth, random);
    let mut old = vec![list.card.clone()];
    for step in history {
        match step {
            Some(index) => list.write(*index, random),
            None => list.wipe(random),
        }
        old.push(list.card.clone());
    }
    list.wipe(random);
    (list, old)
}

/// Every pair of old nodes, and every old node alone as a pair with itself.
fn pairs(depth: u64, cards: usize) -> Vec<[Old; 2]> {
    let nodes = |card| layout::nodes(depth).map(move |node| (card, node.0));
    let all: Vec<Old> = (0..cards).flat_map(nodes).collect();
    let mut pairs = Vec::new();
    for (at, &first) in all.iter().enumerate() {
        let others = all[at..].iter();
        let apart = others.filter(|second| second.1 != first.1 || **second == first);
        pairs.extend(apart.map(|&second| [first, second]));
    }
    pairs
}

/// The call on a card that has these old nodes: refused for the first of them in its checking order, or accepted.
fn expect(call: &Call, kind: Kind, index: u64, old: &[u64]) -> (Call, Answer) {
    let mut call = call.clone();
    (call.kind, call.index) = (kind, index);
    let mut order = checked(kind, cards::depth(&call.anchor), index).into_iter();
    let first = order.find(|node| old.contains(&node.0));
    let due = first.map_or(Answer::ACCEPTED, |node| Answer::wrong(node.0));
    assert_eq!(call.both(), due, "old {old:?}: {}", call.short());
    (call, due)
}

/// Every read is refused on the path of an old node and gives zeros elsewhere, and a check is refused.
fn expect_reads_and_check(call: &Call, old: &[u64], seen: &mut Seen) {
    for index in 0..layout::blocks(cards::depth(&call.anchor)) {
        let (read, answer) = expect(call, Kind::Read, index, old);
        note(&mut seen.reads, answer);
        if answer.accepted() {
            assert_eq!(read.block, [0; 64], "{}", call.short());
        }
    }
    let (_, answer) = expect(call, Kind::Check, 0, old);
    note(&mut seen.checks, answer);
}

/// After each write that is accepted, every read is refused or gives the new block or zeros.
fn expect_writes(call: &Call, old: &[u64], seen: &mut Seen) {
    let blocks = layout::blocks(cards::depth(&call.anchor));
    for index in 0..blocks {
        let (written, answer) = expect(call, Kind::Write, index, old);
        note(&mut seen.writes, answer);
        for other in (0..blocks).filter(|_| answer.accepted()) {
            let mut read = written.clone();
            (read.kind, read.index, read.block) = (Kind::Read, other, vec![0xc7; 64]);
            let answer = read.both();
            note(&mut seen.reads_after, answer);
            let due = if other == index {
                &call.block[..]
            } else {
                &[0; 64]
            };
            let agrees = answer.accepted() && read.block == due;
            assert!(agrees || answer.number == 8, "{}", call.short());
        }
    }
}

/// Each card of any two nodes of before among the wiped ones, and each whole card of before.
fn run(depth: u64, longest: usize, writes: bool) -> Seen {
    let (mut random, mut seen) = (Random::new(0x7769_7065 + depth), Seen::default());
    for history in histories(depth, longest) {
        let (list, old) = wiped(depth, &history, &mut random);
        let wiped = list.call(Kind::Read, 0, &mut random);
        let mut try_card = |card: Vec<u8>, nodes: &[u64]| {
            let call = Call {
                card,
                ..wiped.clone()
            };
            expect_reads_and_check(&call, nodes, &mut seen);
            if writes {
                expect_writes(&call, nodes, &mut seen);
            }
        };
        for pair in pairs(depth, old.len()) {
            let mut card = list.card.clone();
            for (other, node) in pair {
                cards::place(&mut card, &old[other], depth, Node(node));
            }
            try_card(card, &pair.map(|one| one.1));
        }
        let all: Vec<u64> = layout::nodes(depth).map(|node| node.0).collect();
        old.into_iter().for_each(|card| try_card(card, &all));
    }
    println!("depth {depth}, up to {longest} steps before the wipe: {seen:?}");
    seen
}

/// Reads came up both ways and no check was accepted; in these, too, both ways came up.
fn expect_seen(seen: &Seen, too: &[[u64; 2]]) {
    let both = [&[seen.reads], too].concat();
    let often = both.iter().flatten().all(|&count| count >= 24);
    assert!(often && seen.checks[0] == 0, "{seen:?}");
}

/// A write replaces one of two nodes and checks the other, so that every read after it is accepted.
#[test]
fn old_nodes_depth_1() {
    let seen = run(1, 4, true);
    expect_seen(&seen, &[seen.writes]);
    assert!(seen.reads_after[0] >= 24 && seen.reads_after[1] == 0);
}

#[test]
fn old_nodes_depth_2() {
    let seen = run(2, 3, true);
    expect_seen(&seen, &[seen.writes, seen.reads_after]);
}

#[test]
fn old_nodes_depth_3() {
    expect_seen(&run(3, 2, false), &[]);
}

/// A card for the next wipe: any bytes, zeros, ones, or one of before.
fn any_card(list: &List, random: &mut Random) -> Vec<u8> {
    let length = list.card.len();
    match random.below(4) {
        0 => vec![0; length],
        1 => vec![0xff; length],
        2 => list.old[random.below(list.old.len())].clone(),
        _ => random.bytes(length),
    }
}

/// Whatever is on the card, a wipe makes it empty, whole and ready to be written.
#[test]
fn any_bytes() {
    let mut random = Random::new(0x0061_6e79);
    for depth in (1..=10).chain([16]) {
        let mut list = List::new(depth, &mut random);
        for _ in 0..if depth < 16 { 24 } else { 2 } {
            let mut call = list.call(Kind::Wipe, 0, &mut random);
            call.card = any_card(&list, &mut random);
            list.go_on(call, &mut random);
            let mut check = list.call(Kind::Check, 0, &mut random);
            assert_eq!(check.both(), Answer::ACCEPTED);
            for _ in 0..random.below(3) {
                let index = random.below(list.blocks() as usize) as u64;
                list.write(index, &mut random);
            }
        }
    }
}

/// A card of which only the first bytes were stored, for each number of them: a check is refused, a read too or gives zeros,
/// and to wipe again leaves what a wipe of the whole card does.
#[test]
fn stored_in_part() {
    let mut random = Random::new(0x7061_7274);
    for depth in 1..=3 {
        let (mut list, old) = wiped(depth, &[Some(0), Some(1), Some(0)], &mut random);
        for (stored, kept) in (0..list.card.len()).flat_map(|at| [(at, &old[3]), (at, &old[0])]) {
            let mut call = list.call(Kind::Check, 0, &mut random);
            call.card[stored..].copy_from_slice(&kept[stored..]);
            let whole = call.card == list.card;
            assert_eq!(call.clone().both().accepted(), whole, "{stored} bytes");
            for index in 0..list.blocks() {
                let mut read = call.clone();
                (read.kind, read.index) = (Kind::Read, index);
                let answer = read.both();
                let zeros = answer.accepted() && read.block == [0; 64];
                assert!(zeros || answer.number == 8, "{stored} bytes");
            }
            call.kind = Kind::Wipe;
            let mut after = call.clone();
            let answer = after.both();
            assert!(answer.accepted());
            list.judge(&call, &after, answer);
        }
    }
}

/// The same is left wherever in memory anchor and card start.
#[test]
fn any_alignment() {
    let mut random = Random::new(0x616c_6967);
    let list = List::new(4, &mut random);
    let (mut anchor, mut card) = (list.anchor.clone(), list.card.clone());
    assert_eq!(pat::wipe(&mut anchor, &mut card), 0);
    let mut space = vec![0; 4_096];
    for shift in 0..64 {
        let (first, second) = space.split_at_mut(128);
        let lent = &mut first[shift..][..40];
        let moved = &mut second[3 * shift + 1..][..card.len()];
        lent.copy_from_slice(&list.anchor);
        moved.copy_from_slice(&list.card);
        assert_eq!(pat::wipe(lent, moved), 0);
        assert!(lent == anchor && moved == card, "shift {shift}");
    }
}
