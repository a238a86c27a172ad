//! A journalled write over the write and one CMAC of its journal's message; and a recovery, with a journal to apply and without one.
//!
//! The CMAC is one of a chain of such tags under one context, so that it has no key expansion of its own.

use super::card::{Card, Proved};
use super::places::Places;
use super::store::{Drawn, Store, DRAWN};
use super::tables::nanoseconds;
use super::targets::print_most;
use super::DEEPEST;
use crate::clock::stopwatch;
use crate::report::{print_head, print_line};
use crate::subject::KEY;
use crate::timing::{race, Span};
use bindings::pat;
use reference::host::ANCHOR_BYTES;
use std::hint::black_box;
use std::rc::Rc;
use std::time::Duration;

/// The most that a journalled write may take, as a multiple of the write and the CMAC.
const TARGET: f64 = 1.10;

/// What is timed at each depth.
#[derive(Clone, Copy, PartialEq)]
enum Part {
    /// The write alone.
    Write,
    /// The CMAC of a journal's message.
    Tag,
    /// The journalled write.
    Journalled,
    /// A recovery that puts the journal's bytes on the card.
    Applied,
    /// A recovery from a journal of another root nonce.
    Kept,
}

const PARTS: [Part; 5] = [
    Part::Write,
    Part::Tag,
    Part::Journalled,
    Part::Applied,
    Part::Kept,
];

/// How many seconds the figures may take.
const SECONDS: u64 = 45;

/// What was found at a depth, in the order of the parts.
pub struct Found {
    depth: u32,
    times: [f64; PARTS.len()],
}

impl Found {
    /// A journalled write as a multiple of the write and the CMAC.
    fn ratio(&self) -> f64 {
        let [write, tag, journalled, ..] = self.times;
        journalled / (write + tag)
    }
}

/// The cards of one depth, one written and one written with a journal, and what belongs to them.
struct Cards {
    depth: u32,
    written: Card,
    journalled: Card,
    raised: [u8; ANCHOR_BYTES],
    journal: Vec<u8>,
    /// The same with another root nonce.
    other: Vec<u8>,
    /// How often each card was written.
    turns: [usize; 2],
}

impl Cards {
    /// Two cards with every drawn block written, one of them with journals.
    fn new(depth: u32, drawn: &Drawn) -> Result<Self, String> {
        let made = || {
            let mut card = Card::new(Rc::new(Proved), depth);
            let accepted = card.format();
            accepted.then_some(card)
        };
        let made = || made().ok_or(format!("a format at depth {depth} is refused"));
        let mut cards = Cards {
            depth,
            written: made()?,
            journalled: made()?,
            raised: [0; ANCHOR_BYTES],
            journal: vec![0; 56 * depth as usize + 80],
            other: Vec::new(),
            turns: [0; 2],
        };
        cards.write(drawn, DRAWN as u64);
        cards.write_journalled(drawn, DRAWN as u64);
        Ok(cards)
    }

    /// Writes that many blocks.
    fn write(&mut self, drawn: &Drawn, count: u64) {
        let mut accepted = true;
        for _ in 0..count {
            let (index, block) = drawn.turn(self.depth, self.turns[0]);
            accepted &= self.written.write(index, block);
            self.turns[0] += 1;
        }
        assert!(accepted, "a write at depth {} is refused", self.depth);
    }

    /// Writes that many blocks with their journals.
    fn write_journalled(&mut self, drawn: &Drawn, count: u64) {
        let Card {
            anchor,
            card,
            ranges,
            ..
        } = &mut self.journalled;
        let (raised, journal) = (&mut self.raised, &mut self.journal);
        let mut answers = 0;
        for _ in 0..count {
            let (index, block) = drawn.turn(self.depth, self.turns[1]);
            answers |= pat::write_journalled(anchor, raised, card, index, block, ranges, journal);
            self.turns[1] += 1;
        }
        assert!(answers == 0, "a journalled write is refused");
    }

    /// Makes the CMAC of so many journals' messages.
    fn make_tags(&self, count: u64) {
        let mut message = self.journal[..self.journal.len() - 16].to_vec();
        let answer = bindings::tag_chain(&KEY, &mut message, count);
        assert!(answer == 0, "the chain's length is right");
        black_box(message);
    }

    /// Recovers the journalled card that many times, from its own journal or from the other.
    fn recover(&mut self, part: Part, count: u64) {
        let journal = match part {
            Part::Applied => &self.journal,
            _ => &self.other,
        };
        let Card { anchor, card, .. } = &mut self.journalled;
        let mut answers = 0;
        for _ in 0..count {
            answers |= pat::recover(anchor, card, black_box(journal));
        }
        assert!(answers == 0, "a recovery is refused");
    }

    /// Times a part on a warm card.
    fn measure(&mut self, part: Part, drawn: &Drawn, count: u64) -> Duration {
        let card = match part {
            Part::Write => &mut self.written,
            _ => &mut self.journalled,
        };
        for turn in (0..DRAWN).filter(|_| count > 0) {
            let (index, _) = drawn.turn(self.depth, turn);
            assert!(black_box(card.read(index)).is_some(), "a read is refused");
        }
        self.other.clone_from(&self.journal);
        self.other[0] ^= 1;
        stopwatch(count, |count| match part {
            Part::Write => self.write(drawn, count),
            Part::Tag => self.make_tags(count),
            Part::Journalled => self.write_journalled(drawn, count),
            Part::Applied | Part::Kept => self.recover(part, count),
        })
    }

    /// After as many writes both cards are the same, and a recovery makes the last card of the one before.
    fn compare(&mut self, drawn: &Drawn) -> Result<(), String> {
        let [written, journalled] = self.turns;
        self.write(drawn, (journalled + 1).saturating_sub(written) as u64);
        let before = self.journalled.card.clone();
        self.write_journalled(drawn, (self.turns[0] - journalled) as u64);
        if self.written.bytes() != self.journalled.bytes() {
            return Err(format!("journalled writes differ at depth {}", self.depth));
        }
        let mut card = before;
        if self.turns[1] == journalled + 1 {
            pat::recover(&self.journalled.anchor, &mut card, &self.journal);
            if card != self.journalled.card {
                return Err(format!("a recovery differs at depth {}", self.depth));
            }
        }
        Ok(())
    }
}

/// Times the parts in turn at each depth.
pub fn measure() -> Result<Vec<Found>, String> {
    let drawn = Drawn::new();
    let made = (1..=DEEPEST).map(|depth| Cards::new(depth, &drawn));
    let mut cards = made.collect::<Result<Vec<_>, _>>()?;
    let mut places = Places::default();
    let works = cards.len() * PARTS.len();
    let figures = race(works, Span::short(SECONDS), |work, count| {
        let (cards, part) = (&mut cards[work / PARTS.len()], PARTS[work % PARTS.len()]);
        places.run(|| cards.measure(part, &drawn, count))
    });
    cards
        .iter_mut()
        .try_for_each(|cards| cards.compare(&drawn))?;
    let times = figures.chunks(PARTS.len());
    let found = times.zip(1..).map(|(figures, depth)| Found {
        depth,
        times: std::array::from_fn(|part| figures[part].each),
    });
    Ok(found.collect())
}

/// Prints the table; a step of the clock lasts so long.
pub fn print(found: &[Found], pace: f64) {
    println!("## A journalled write, and recovery\n");
    println!("A write, the CMAC of a journal's message (one of many under one context), the journalled write and");
    println!("what it takes of the two; a recovery that puts a journal's bytes on the card, and one that leaves");
    println!("a journal of another root nonce alone. On cards written alike and in turn.\n");
    print_head(
        [
            "depth",
            "write",
            "CMAC",
            "journalled write",
            "of the two",
            "recovery",
            "nothing to recover",
        ]
        .map(str::to_string),
    );
    for one in found {
        let mut cells = one.times.map(|time| nanoseconds(time * pace)).to_vec();
        cells.insert(3, format!("{:.3}", one.ratio()));
        cells.insert(0, one.depth.to_string());
        print_line(cells);
    }
    println!();
    let ratios: Vec<f64> = found.iter().map(Found::ratio).collect();
    let text =
        format!("journalled write at most {TARGET:.2} of a write and a CMAC of 56n + 64 bytes");
    print_most(&text, TARGET, &ratios);
}

#[cfg(test)]
mod tests {
    use super::*;

    /// Both cards keep up with each other, whatever was timed between, and one that missed a write is found.
    #[test]
    fn journalled_writes_are_writes() {
        let drawn = Drawn::new();
        for depth in [1, 2, 3, 5, 8] {
            let mut cards = Cards::new(depth, &drawn).expect("accepted calls");
            for part in PARTS.into_iter().chain([Part::Journalled, Part::Write]) {
                cards.measure(part, &drawn, 16);
                cards.compare(&drawn).expect("the same cards");
            }
            assert_eq!(cards.turns[0], cards.turns[1]);
            assert!(cards.journalled.check());
            cards.turns[1] += 1;
            cards.compare(&drawn).expect_err("a write is missing");
        }
    }
}
