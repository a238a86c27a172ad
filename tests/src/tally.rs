//! How often each call was answered with each number, so that a test can hold its own reach.

use crate::call::{Answer, Call, Kind};
use std::collections::BTreeSet;

/// The column of another length of what only C has in bytes, which is refused 5 before the rest.
const LENGTHS: usize = 11;

/// The counts, and the nodes that refusal 8 named.
#[derive(Default)]
pub struct Tally {
    counts: [[u64; LENGTHS + 1]; Kind::ALL.len()],
    named: [BTreeSet<u64>; Kind::ALL.len()],
}

impl Tally {
    /// Counts one call.
    pub fn count(&mut self, call: &Call, answer: Answer) {
        let row = call.kind as usize;
        let column = if call.lengths_fit() {
            answer.number as usize
        } else {
            assert_eq!(answer, Answer::plain(5), "another length");
            LENGTHS
        };
        self.counts[row][column] += 1;
        if answer.number == 8 {
            self.named[row].insert(answer.node);
        }
    }

    /// How many calls there were.
    pub fn calls(&self) -> u64 {
        self.counts.iter().flatten().sum()
    }

    /// How many of these kinds there were.
    pub fn calls_of(&self, kinds: &[Kind]) -> u64 {
        let rows = kinds.iter().map(|&kind| self.counts[kind as usize]);
        rows.flatten().sum()
    }

    /// How often that call was answered with that number.
    pub fn of(&self, kind: Kind, number: usize) -> u64 {
        self.counts[kind as usize][number]
    }

    /// The nodes that refusal 8 of that call named.
    pub fn named(&self, kind: Kind) -> &BTreeSet<u64> {
        &self.named[kind as usize]
    }

    /// Stops the test unless each call gave each answer that it can give at least that often, and no other.
    pub fn expect_each(&self, least: u64) {
        for kind in Kind::ALL {
            for column in 0..=LENGTHS {
                let count = self.of(kind, column);
                if answers(kind).contains(&column) {
                    assert!(count >= least, "{kind:?}, answer {column}: {count} times");
                } else {
                    assert_eq!(count, 0, "{kind:?} has no answer {column}");
                }
            }
        }
    }

    /// Prints a row for each call.
    pub fn print(&self, title: &str) {
        println!("{title}: {} calls", self.calls());
        println!(
            "             accepted and refusals 1 to 10, then other lengths of what only C has in bytes"
        );
        for kind in Kind::ALL {
            println!(
                "  {:10} {:?}",
                format!("{kind:?}"),
                self.counts[kind as usize]
            );
        }
    }
}

/// What each call can answer.
fn answers(kind: Kind) -> &'static [usize] {
    match kind {
        Kind::Format => &[0, 1, 3, LENGTHS],
        Kind::Read => &[0, 1, 2, 3, 4, 5, 8, LENGTHS],
        Kind::Write | Kind::Plan => &[0, 1, 2, 3, 4, 5, 6, 7, 8, LENGTHS],
        Kind::Check => &[0, 1, 2, 3, 8, LENGTHS],
        Kind::Wipe => &[0, 1, 2, 3, 7, LENGTHS],
        Kind::Put => &[0, 1, 2, 3, 9, LENGTHS],
        Kind::Journalled => &[0, 1, 2, 3, 4, 5, 6, 7, 8, 10, LENGTHS],
        Kind::Recover => &[0, 1, 2, 3, 10, LENGTHS],
    }
}
