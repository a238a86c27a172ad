//! The stored output of the program `histories` is the reference's log, and the log has what the histories are for.

use std::path::Path;

const STORED: &str = "../crates/histories/stdout";

/// Kinds of steps: a check, a read of the old card, two of its nodes among new ones, a check after which the card is the old
/// one, a wipe, a split write, and one that is refused or has a bit flipped before its puts.
const CHECK: u64 = 9;
const OLD: u64 = 12;
const MIXED: u64 = 13;
const KEPT: u64 = 15;
const WIPE: u64 = 16;
const SPLIT: u64 = 17;
const HOSTILE_SPLIT: u64 = 18;

/// How often a thing comes up at the least, over all depths.
const LEAST: u64 = 12;

/// A step: its kind, the number that it answers, and the root nonce and the card's checksum after it.
struct Step {
    kind: u64,
    number: u64,
    root: u64,
    card: u64,
}

/// The steps at each depth from 1, each history with the format first.
fn histories() -> Vec<Vec<Step>> {
    let mut histories: Vec<Vec<Step>> = Vec::new();
    for line in tests::log::log().lines() {
        if line.starts_with("depth ") {
            histories.push(Vec::new());
            continue;
        }
        let numbers = line.split(' ').map(|word| word.parse().expect("a number"));
        let numbers: Vec<u64> = numbers.collect();
        histories.last_mut().expect("a depth").push(Step {
            kind: numbers[1],
            number: numbers[2],
            root: numbers[5],
            card: numbers[6],
        });
    }
    histories
}

/// Each of the numbers comes up often enough, and no other does.
fn all_of(numbers: &[usize], counts: [u64; 9], what: &str) {
    println!("{what}: {counts:?}");
    for (number, &count) in counts.iter().enumerate() {
        let right = match numbers.contains(&number) {
            true => count >= LEAST,
            false => count == 0,
        };
        assert!(right, "{what}, answer {number}: {count} times");
    }
}

/// Every line is the same; the first one that differs is shown.
#[test]
fn stored_output() {
    let path = Path::new(env!("CARGO_MANIFEST_DIR")).join(STORED);
    let stored = std::fs::read_to_string(&path).expect("the stored output");
    let log = tests::log::log();
    for (at, (stored, line)) in stored.lines().zip(log.lines()).enumerate() {
        assert_eq!(stored, line, "line {}: stored, then reference", at + 1);
    }
    assert_eq!(stored.len(), log.len(), "one is longer than the other");
}

/// Every answer comes up.
#[test]
fn answers() {
    let mut counts = [0; 9];
    for step in histories().iter().flatten() {
        counts[step.number as usize] += 1;
    }
    assert_eq!(counts.iter().sum::<u64>(), 6 * 701);
    all_of(&[0, 1, 2, 3, 4, 5, 6, 7, 8], counts, "steps");
}

/// Wipes are accepted at every depth and refused by every limit that they have. An accepted one moves the root nonce by the
/// depth, and a refused one changes nothing.
#[test]
fn wipes() {
    let mut counts = [0; 9];
    for (depth, steps) in (1..).zip(histories()) {
        let mut accepted = 0;
        for pair in steps.windows(2).filter(|pair| pair[1].kind == WIPE) {
            let (before, wipe) = (&pair[0], &pair[1]);
            if wipe.number == 0 {
                accepted += 1;
                assert_eq!(wipe.root, before.root + depth);
            } else {
                assert_eq!((wipe.root, wipe.card), (before.root, before.card));
            }
            counts[wipe.number as usize] += 1;
        }
        assert!(accepted >= LEAST, "depth {depth}: {accepted} accepted");
    }
    all_of(&[0, 1, 2, 3, 7], counts, "wipes");
}

/// Split writes are accepted at every depth, and refused for a wrong tag and by the limits that they are made to pass. An accepted
/// one moves the root nonce by the depth, and a refused one changes nothing.
#[test]
fn splits() {
    let (mut plain, mut hostile) = ([0; 9], [0; 9]);
    for (depth, steps) in (1..).zip(histories()) {
        let (mut accepted, mut spoiled) = (0, 0);
        for pair in steps.windows(2) {
            let (before, split) = (&pair[0], &pair[1]);
            let counts = match split.kind {
                SPLIT => &mut plain,
                HOSTILE_SPLIT => &mut hostile,
                _ => continue,
            };
            counts[split.number as usize] += 1;
            if split.number == 0 {
                assert_eq!(split.root, before.root + depth);
                accepted += u64::from(split.kind == SPLIT);
                spoiled += u64::from(split.kind == HOSTILE_SPLIT);
            } else {
                assert_eq!(split.root, before.root);
                let flipped = split.kind == HOSTILE_SPLIT && split.number == 8;
                assert!(split.card == before.card || flipped);
            }
        }
        println!("depth {depth}: {accepted} accepted, {spoiled} spoiled");
        assert!(accepted >= LEAST && spoiled >= 2, "depth {depth}");
    }
    all_of(&[0, 8], plain, "split writes");
    let damaged = std::mem::take(&mut hostile[8]);
    assert!(damaged >= 1, "on a card that is damaged already");
    all_of(&[0, 3, 6], hostile, "hostile split writes");
}

/// The card of before a wipe is refused at every read after it; two of its nodes among new ones are too, where they are looked
/// at.
#[test]
fn cards_of_before_a_wipe() {
    let (mut whole, mut mixed) = ([0; 9], [0; 9]);
    for steps in histories() {
        let mut wiped = false;
        for step in steps {
            match step.kind {
                KEPT => wiped = false,
                WIPE => wiped |= step.number == 0,
                OLD if wiped => whole[step.number as usize] += 1,
                MIXED if wiped => mixed[step.number as usize] += 1,
                _ => {}
            }
        }
    }
    all_of(&[8], whole, "old cards");
    all_of(&[0, 8], mixed, "old nodes");
}

/// A write may leave an old node on the card, and a bit may be flipped before the puts of a plan; a check finds it. A wipe mends
/// that: until the next such step every check is accepted.
#[test]
fn mended() {
    let (mut wrong, mut mended) = (0, 0);
    for steps in histories() {
        let (mut found, mut fresh) = (false, true);
        for step in steps {
            match (step.kind, step.number) {
                (WIPE, 0) => {
                    mended += u64::from(found);
                    (found, fresh) = (false, true);
                }
                (MIXED, 0) | (HOSTILE_SPLIT, 0 | 8) => fresh = false,
                (CHECK | KEPT, number) => {
                    assert!(number == 0 || !fresh, "a check of a wiped card: {number}");
                    found = number != 0;
                    wrong += u64::from(found);
                }
                _ => {}
            }
        }
    }
    println!("checks refused: {wrong}; cards mended: {mended}");
    assert!(wrong >= LEAST && mended >= 6, "{wrong}, {mended}");
}
