//! Nodes of an old card put among the new ones at depth 3, a wipe between them or not: no block of before is ever read as the
//! last one.

use reference::array::{Array, Told};
use reference::tree::Node;
use tests::call::{Answer, Call, Kind};
use tests::cards;
use tests::list::List;
use tests::random::Random;

const DEPTH: u64 = 3;
const NODES: std::ops::Range<u64> = 2..16;

/// The blocks written, and a wipe among them; the card before each step is an old one.
const STEPS: [Option<u64>; 8] = [
    Some(5),
    Some(2),
    Some(5),
    None,
    Some(4),
    Some(0),
    Some(2),
    Some(5),
];

/// What came up, so that the test holds its own reach.
#[derive(Default, Debug)]
struct Seen {
    reads: [u64; 2],
    checks: [u64; 2],
    writes: [u64; 2],
    reads_after: [u64; 2],
}

/// Counts an answer: accepted first, refused second.
fn note(counts: &mut [u64; 2], answer: Answer) {
    assert!(answer.accepted() || answer.number == 8, "{answer:?}");
    counts[usize::from(!answer.accepted())] += 1;
}

/// A list after the steps, and the card of each stage before.
fn staged(random: &mut Random) -> (List, Vec<Vec<u8>>) {
    let mut list = List::new(DEPTH, random);
    let mut old = Vec::new();
    for step in STEPS {
        old.push(list.card.clone());
        match step {
            Some(index) => list.write(index, random),
            None => list.wipe(random),
        }
    }
    (list, old)
}

/// Every read of this card is refused or gives the array's block.
fn expect_reads(call: &Call, array: &Array, counts: &mut [u64; 2]) {
    for index in 0..8 {
        let mut read = call.clone();
        read.kind = Kind::Read;
        read.index = index;
        read.block = vec![0x5a; 64];
        let answer = read.both();
        note(counts, answer);
        if answer.accepted() {
            assert_eq!(read.block, array.block(index), "{}", call.short());
        }
    }
}

/// A check is accepted for the very bytes that were left, and for no others.
fn expect_check(list: &List, call: &Call, counts: &mut [u64; 2]) {
    let mut check = call.clone();
    check.kind = Kind::Check;
    let answer = check.both();
    note(counts, answer);
    assert_eq!(answer.accepted(), call.card == list.card);
}

/// After a write that is accepted, every read is refused or gives the array's block, and no other card than the right one
/// passes the check.
fn expect_writes(list: &List, call: &Call, seen: &mut Seen) {
    for index in 0..8 {
        let mut write = call.clone();
        write.kind = Kind::Write;
        write.index = index;
        let answer = write.both();
        note(&mut seen.writes, answer);
        if !answer.accepted() {
            continue;
        }
        let mut array = list.array.clone();
        array.step(Told::Write(index, &call.block), true);
        expect_reads(&write, &array, &mut seen.reads_after);
        write.kind = Kind::Check;
        if write.both().accepted() {
            let blocks = (0..8).map(|index| cards::block(&write.card, DEPTH, index));
            assert!(blocks.eq(array.blocks()), "{}", call.short());
        }
    }
}

/// Each pair of nodes (and each node alone, as a pair with itself) from each old card.
#[test]
fn every_pair() {
    let mut random = Random::new(0x6f6c64);
    let mut seen = Seen::default();
    let (list, old) = staged(&mut random);
    for other in &old {
        for first in NODES {
            for second in first..NODES.end {
                let mut call = list.call(Kind::Write, 0, &mut random);
                cards::place(&mut call.card, other, DEPTH, Node(first));
                cards::place(&mut call.card, other, DEPTH, Node(second));
                expect_reads(&call, &list.array, &mut seen.reads);
                expect_check(&list, &call, &mut seen.checks);
                expect_writes(&list, &call, &mut seen);
            }
        }
    }
    println!("pairs: {seen:?}");
    let all = [seen.reads, seen.checks, seen.writes, seen.reads_after];
    assert!(all.iter().flatten().all(|&count| count >= 24), "{seen:?}");
}

/// Every set of nodes from the first old card, from the last one before the wipe and from the last one.
#[test]
fn every_set() {
    let mut random = Random::new(0x736574);
    let mut seen = Seen::default();
    let (list, old) = staged(&mut random);
    let wipe = STEPS.iter().position(Option::is_none).expect("a wipe");
    for other in [&old[0], &old[wipe], &old[STEPS.len() - 1]] {
        for set in 0..1_u64 << (NODES.end - NODES.start) {
            let mut call = list.call(Kind::Read, 0, &mut random);
            for node in NODES.filter(|node| set >> (node - NODES.start) & 1 == 1) {
                cards::place(&mut call.card, other, DEPTH, Node(node));
            }
            expect_reads(&call, &list.array, &mut seen.reads);
            expect_check(&list, &call, &mut seen.checks);
        }
    }
    println!("sets: {seen:?}");
    let all = [seen.reads, seen.checks];
    assert!(all.iter().flatten().all(|&count| count >= 24), "{seen:?}");
}
