//! A write in two parts over the write in one: the plan, its tags and their puts, in one thread.
//!
//! The tags that are put are taken from a card that is written ahead, before the clock starts. Their time is that of as many
//! tags of such messages by the proved CMAC, one after the other under one context: engines share one expanded key.

use super::card::{Card, Proved};
use super::places::Places;
use super::store::{Drawn, Store, DRAWN};
use super::tables::nanoseconds;
use super::targets::print_most;
use super::DEEPEST;
use crate::clock::stopwatch;
use crate::report::{print_head, print_line};
use crate::subject::KEY;
use crate::timing::{race, Span};
use bindings::pat;
use reference::host::{MESSAGES_BYTES, PLAN_BYTES};
use reference::tree::layout::{self, TAG_BYTES};
use reference::tree::Node;
use std::hint::black_box;
use std::rc::Rc;
use std::time::Duration;

/// The most that a split write may take, as a multiple of a write.
const TARGET: f64 = 1.15;

/// What is timed at each depth.
#[derive(Clone, Copy, PartialEq)]
enum Part {
    /// The write in one.
    Write,
    /// The plan and the puts, with tags from elsewhere.
    PlanAndPuts,
    /// The plan, the tags and the puts.
    Whole,
}

const PARTS: [Part; 3] = [Part::Write, Part::PlanAndPuts, Part::Whole];

/// How many seconds the figures may take.
const SECONDS: u64 = 45;

/// What was found at a depth, in the order of the parts.
pub struct Found {
    depth: u32,
    times: [f64; PARTS.len()],
}

impl Found {
    /// The whole of a split write as a multiple of a write.
    fn ratio(&self) -> f64 {
        let [write, _, whole] = self.times;
        whole / write
    }
}

/// The node of a place of a plan.
fn node(depth: u32, index: u64, place: u32) -> u64 {
    let parent = ((1 << depth) + index) >> (depth - place / 2);
    2 * parent + u64::from(place % 2)
}

/// The cards of one depth. The one ahead and the split one are written alike.
struct Cards {
    depth: u32,
    written: Card,
    ahead: Card,
    split: Card,
    /// The tags of the split writes to come, place after place.
    tags: Vec<[u8; TAG_BYTES]>,
    plan: [u8; PLAN_BYTES],
    messages: [u8; MESSAGES_BYTES],
    /// The turns of the first card and of the two others.
    turns: [usize; 2],
}

impl Cards {
    /// Three cards with every drawn block written.
    fn new(depth: u32, drawn: &Drawn) -> Result<Self, String> {
        let make = || {
            let mut card = Card::new(Rc::new(Proved), depth);
            let mut accepted = card.format();
            for turn in 0..DRAWN {
                let (index, block) = drawn.turn(depth, turn);
                accepted &= card.write(index, block);
            }
            accepted.then_some(card)
        };
        let made = || make().ok_or(format!("a call at depth {depth} is refused"));
        Ok(Cards {
            depth,
            written: made()?,
            ahead: made()?,
            split: made()?,
            tags: Vec::new(),
            plan: [0; PLAN_BYTES],
            messages: [0; MESSAGES_BYTES],
            turns: [0; 2],
        })
    }

    /// Writes that many blocks.
    fn write(&mut self, drawn: &Drawn, count: u64) {
        let mut accepted = true;
        for _ in 0..count {
            let (index, block) = drawn.turn(self.depth, self.turns[0]);
            accepted &= self.written.write(index, block);
            self.turns[0] += 1;
        }
        assert!(accepted, "a write at depth {} is refused", self.depth);
    }

    /// Writes as many blocks ahead, and keeps their tags.
    fn write_ahead(&mut self, drawn: &Drawn, count: u64) {
        self.tags.clear();
        for turn in (self.turns[1]..).take(count as usize) {
            let (index, block) = drawn.turn(self.depth, turn);
            assert!(self.ahead.write(index, block), "a write ahead is refused");
            for place in 0..2 * self.depth {
                let node = Node(node(self.depth, index, place));
                let tag = &self.ahead.card[layout::tag(self.depth.into(), node)];
                self.tags.push(tag.try_into().expect("16 bytes"));
            }
        }
        self.tags.reverse();
    }

    /// Plans that many blocks, each with its puts.
    fn plan_and_put(&mut self, drawn: &Drawn, count: u64) {
        let Card {
            anchor,
            card,
            ranges,
            ..
        } = &mut self.split;
        let (plan, messages) = (&mut self.plan, &mut self.messages);
        let mut answers = 0;
        for _ in 0..count {
            let (index, block) = drawn.turn(self.depth, self.turns[1]);
            answers |= pat::plan(anchor, card, index, block, ranges, plan, messages);
            for place in 0..2 * self.depth {
                let tag = self.tags.pop().expect("a tag that was made ahead");
                let node = node(self.depth, index, place);
                answers |= pat::put_tag(anchor, plan, card, node, &tag);
            }
            self.turns[1] += 1;
        }
        assert!(answers == 0, "a part at depth {} is refused", self.depth);
    }

    /// Makes the tags of that many split writes: of 17 bytes, and two of 73.
    fn make_tags(&self, count: u64) {
        let leaves = 2 * count;
        let inner = leaves * u64::from(self.depth - 1);
        let (mut short, mut long) = ([0x31; 17], [0x31; 73]);
        let answers = bindings::tag_chain(&KEY, &mut short, inner)
            | bindings::tag_chain(&KEY, &mut long, leaves);
        assert!(answers == 0, "the chains' lengths are right");
        black_box((short, long));
    }

    /// Times a part on a warm card.
    fn measure(&mut self, part: Part, drawn: &Drawn, count: u64) -> Duration {
        if part != Part::Write {
            // The stopwatch begins with an eighth.
            self.write_ahead(drawn, count / 8 + count);
        }
        let card = match part {
            Part::Write => &mut self.written,
            _ => &mut self.split,
        };
        for turn in (0..DRAWN).filter(|_| count > 0) {
            let (index, _) = drawn.turn(self.depth, turn);
            assert!(black_box(card.read(index)).is_some(), "a read is refused");
        }
        stopwatch(count, |count| match part {
            Part::Write => self.write(drawn, count),
            Part::PlanAndPuts => self.plan_and_put(drawn, count),
            Part::Whole => {
                self.plan_and_put(drawn, count);
                self.make_tags(count);
            }
        })
    }

    /// The split card is the one written ahead, and whole.
    fn compare(&mut self) -> Result<(), String> {
        match self.ahead.bytes() == self.split.bytes() && self.split.check() {
            true => Ok(()),
            false => Err(format!("split writes differ at depth {}", self.depth)),
        }
    }
}

/// Times write and split write in turn at each depth.
pub fn measure() -> Result<Vec<Found>, String> {
    let drawn = Drawn::new();
    let made = (1..=DEEPEST).map(|depth| Cards::new(depth, &drawn));
    let mut cards = made.collect::<Result<Vec<_>, _>>()?;
    let mut places = Places::default();
    let works = cards.len() * PARTS.len();
    let figures = race(works, Span::short(SECONDS), |work, count| {
        let (cards, part) = (&mut cards[work / PARTS.len()], PARTS[work % PARTS.len()]);
        places.run(|| cards.measure(part, &drawn, count))
    });
    cards.iter_mut().try_for_each(Cards::compare)?;
    let times = figures.chunks(PARTS.len());
    let found = times.zip(1..).map(|(figures, depth)| Found {
        depth,
        times: std::array::from_fn(|part| figures[part].each),
    });
    Ok(found.collect())
}

/// Prints the table; a step of the clock lasts so long.
pub fn print(found: &[Found], pace: f64) {
    println!("## A write in two parts\n");
    println!(
        "A write, and the plan with its puts and its tags, in one thread, on the same cards and in"
    );
    println!("turn. The tags are those of a plan in number and length, made by the proved CMAC one after");
    println!("the other, under one context for all writes of a repetition, as engines share one expanded");
    println!("key. The tags that are put were made before the clock started.\n");
    print_head(
        [
            "depth",
            "write",
            "plan and puts",
            "with the tags",
            "of a write",
        ]
        .map(str::to_string),
    );
    for one in found {
        let times = one.times.map(|time| nanoseconds(time * pace));
        let ratio = format!("{:.3}", one.ratio());
        print_line(
            [one.depth.to_string()]
                .into_iter()
                .chain(times)
                .chain([ratio]),
        );
    }
    println!();
    let ratios: Vec<f64> = found.iter().map(Found::ratio).collect();
    let text = format!("split write at most {TARGET} of a write");
    print_most(&text, TARGET, &ratios);
}

#[cfg(test)]
mod tests {
    use super::*;

    /// The split card keeps up with the one ahead, and another tag is found.
    #[test]
    fn splits_are_writes() {
        let drawn = Drawn::new();
        for depth in [1, 2, 3, 5, 8] {
            let mut cards = Cards::new(depth, &drawn).expect("accepted calls");
            for count in [0, 1, 40] {
                cards.measure(Part::Whole, &drawn, count);
                cards.measure(Part::PlanAndPuts, &drawn, count);
                cards.compare().expect("the same cards");
            }
            let turns = cards.turns[1];
            assert_eq!(turns, 2 * (1 + 45));
            cards.write(&drawn, turns as u64);
            assert!(cards.written.bytes() == cards.split.bytes());
            cards.write_ahead(&drawn, 1);
            cards.tags[0][3] ^= 1;
            cards.plan_and_put(&drawn, 1);
            cards.compare().expect_err("another tag");
        }
    }
}
