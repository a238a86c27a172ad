//! The log that the program `histories` prints, made by the reference alone.
//!
//! For each depth from 1 to 6: a line with the depth, then a line for the format (step 0, kind 19) and for each of 700 steps:
//! step, kind, answer number, node, count of AES calls (0 for the format), root nonce, and the Adler-32 of card, read buffer and
//! range buffer. Of a split write number, node and count are the plan's, and the read buffer has what each of its puts answered.

use reference::cmac::Cmac;
use reference::tree::{self, layout, paths, Anchor, Answer, BlockIndex, Counted, Node, Plan};
use std::fmt::Write;

const DEPTHS: std::ops::RangeInclusive<u64> = 1..=6;
const STEPS: u64 = 700;
const KINDS: u64 = 19;
const FORMAT: u64 = KINDS;
const FRESH_CARD: u8 = 0xa5;
const FRESH_BUFFER: [u8; 64] = [0x5a; 64];
const FRESH_RANGES: [u8; 101] = [0x3c; 101];

/// The generator xorshift64.
struct Draws(u64);

impl Draws {
    /// The next number.
    fn draw(&mut self) -> u64 {
        self.0 ^= self.0 << 13;
        self.0 ^= self.0 >> 7;
        self.0 ^= self.0 << 17;
        self.0
    }

    /// The low byte of as many numbers, one after the other.
    fn bytes<const N: usize>(&mut self) -> [u8; N] {
        std::array::from_fn(|_| self.draw() as u8)
    }
}

/// The Adler-32 checksum of RFC 1950.
fn adler(bytes: &[u8]) -> u32 {
    let (mut low, mut high) = (1, 0);
    for &byte in bytes {
        low = (low + u32::from(byte)) % 65_521;
        high = (high + low) % 65_521;
    }
    high << 16 | low
}

/// A plan for a block that a card of that depth has not: it waits for no tag, as after a refusal.
fn nothing(depth: u64) -> Plan {
    Plan {
        index: layout::blocks(depth),
        root: 0,
        filled: 0,
    }
}

/// One depth: its card and anchor, an earlier card, and what the last step left in the buffers.
struct Run {
    draws: Draws,
    anchor: Anchor,
    card: Vec<u8>,
    old: Vec<u8>,
    buffer: [u8; 64],
    ranges: [u8; 101],
}

impl Run {
    /// Formats a card under a key that is drawn.
    fn start(depth: u64) -> (Self, Answer) {
        let mut draws = Draws(0x9e37_79b9_7f4a_7c15 ^ depth);
        let key = draws.bytes();
        let mut card = vec![FRESH_CARD; layout::card_bytes(depth)];
        let answer = tree::format(&key, depth, &mut card);
        let Answer::Accepted(anchor) = answer else {
            panic!("format at depth {depth}: {answer:?}");
        };
        let run = Run {
            draws,
            anchor,
            old: card.clone(),
            card,
            buffer: FRESH_BUFFER,
            ranges: FRESH_RANGES,
        };
        (run, answer)
    }

    /// One step; gives its kind, and its answer with the count.
    fn step(&mut self) -> (u64, Counted) {
        self.buffer = FRESH_BUFFER;
        self.ranges = FRESH_RANGES;
        let kind = self.draws.draw() % KINDS;
        let index = self.draws.draw() % layout::blocks(self.anchor.depth);
        let counted = match kind {
            0..=4 => self.write(index),
            5..=8 => self.read(index),
            9 => self.check(),
            10 => self.with_a_bit_flipped(|run| run.read(index)),
            11 => self.with_a_bit_flipped(Run::check),
            12 => tree::read(&self.anchor, &self.old, index, &mut self.buffer),
            13 => self.mixed(index),
            14 => self.beyond_a_limit(index),
            15 => {
                self.old.clone_from(&self.card);
                self.check()
            }
            16 => self.wiped(),
            17 => self.split(index, self.card.len(), self.ranges.len(), false),
            _ => self.hostile_split(index),
        };
        (kind, counted)
    }

    /// Reads a block of the card.
    fn read(&mut self, index: u64) -> Counted {
        tree::read(&self.anchor, &self.card, index, &mut self.buffer)
    }

    /// Writes a block that is drawn.
    fn write(&mut self, index: u64) -> Counted {
        let block: [u8; 64] = self.draws.bytes();
        let (card, ranges) = (&mut self.card, &mut self.ranges);
        let counted = tree::write(&self.anchor, card, index, &block, ranges);
        if let Answer::Accepted(anchor) = counted.answer {
            self.anchor = anchor;
        }
        counted
    }

    /// Checks the card.
    fn check(&mut self) -> Counted {
        tree::check(&self.anchor, &self.card)
    }

    /// Makes a call while one bit of the card is flipped.
    fn with_a_bit_flipped(&mut self, call: impl FnOnce(&mut Run) -> Counted) -> Counted {
        let (at, bit) = self.flip();
        let counted = call(self);
        self.card[at] ^= bit;
        counted
    }

    /// Flips a bit of the card that is drawn, and says which.
    fn flip(&mut self) -> (usize, u8) {
        let at = (self.draws.draw() % self.card.len() as u64) as usize;
        let bit = 1 << (self.draws.draw() % 8);
        self.card[at] ^= bit;
        (at, bit)
    }

    /// Makes a call on the card with two nodes of the old one; an accepted write makes that the card.
    fn mixed(&mut self, index: u64) -> Counted {
        let depth = self.anchor.depth;
        let card = self.card.clone();
        for _ in 0..2 {
            let node = Node(2 + self.draws.draw() % (2 * layout::blocks(depth) - 2));
            let entry = layout::entry(depth, node);
            self.card[entry.clone()].copy_from_slice(&self.old[entry]);
        }
        let choice = self.draws.draw() % 3;
        let counted = match choice {
            0 => self.read(index),
            1 => self.check(),
            _ => self.write(index),
        };
        if choice < 2 || counted.answer.number() != 0 {
            self.card = card;
        }
        counted
    }

    /// Makes a call that a limit refuses.
    fn beyond_a_limit(&mut self, index: u64) -> Counted {
        let (anchor, card) = (&self.anchor, &mut self.card);
        match self.draws.draw() % 4 {
            0 => {
                let short = card.len() - 1;
                tree::read(anchor, &card[..short], index, &mut self.buffer)
            }
            1 => {
                let beyond = layout::blocks(anchor.depth) + index;
                tree::read(anchor, card, beyond, &mut self.buffer)
            }
            2 => tree::read(anchor, card, index, &mut self.buffer[..63]),
            _ => {
                let block: [u8; 64] = self.draws.bytes();
                let short = 16 * anchor.depth as usize - 1;
                tree::write(anchor, card, index, &block, &mut self.ranges[..short])
            }
        }
    }

    /// Wipes the card, in three of four cases spoiled: with a bit flipped, with other bytes, or the old card; or makes a wipe
    /// that a limit refuses.
    fn wiped(&mut self) -> Counted {
        match self.draws.draw() % 8 {
            0 => {}
            1 => _ = self.flip(),
            2 => self.card.fill_with(|| self.draws.draw() as u8),
            3 => self.card.clone_from(&self.old),
            _ => return self.wipe_beyond_a_limit(),
        }
        let counted = tree::wipe(&self.anchor, &mut self.card);
        if let Answer::Accepted(anchor) = counted.answer {
            self.anchor = anchor;
        }
        counted
    }

    /// Makes a wipe with a short card, too great a depth, a root nonce that is no multiple, or the last multiple as reserved
    /// nonce. At depth 1 every number is a multiple, and the last number stands for the third.
    fn wipe_beyond_a_limit(&mut self) -> Counted {
        let (mut anchor, mut bytes) = (self.anchor, self.card.len());
        let depth = anchor.depth;
        match self.draws.draw() % 4 {
            0 => bytes -= 1,
            1 => anchor.depth += 16,
            2 if depth == 1 => anchor.reserved = u64::MAX,
            2 => anchor.root ^= 1,
            _ => anchor.reserved = u64::MAX / depth * depth,
        }
        tree::wipe(&anchor, &mut self.card[..bytes])
    }

    /// Plans a block that is drawn, with so many bytes of card and range buffer lent, and puts its tags, if so with a bit flipped
    /// before them: as many puts as there are places, of places that are drawn, and then one of each place in rising order. The
    /// place behind the last is the root.
    fn split(&mut self, index: u64, card: usize, ranges: usize, flipped: bool) -> Counted {
        let block: [u8; 64] = self.draws.bytes();
        let (lent, ranges) = (&mut self.card[..card], &mut self.ranges[..ranges]);
        let (counted, planned) = tree::plan(&self.anchor, lent, index, &block, ranges);
        if let Answer::Accepted(raised) = counted.answer {
            self.anchor = raised;
        }
        if flipped {
            self.flip();
        }
        let depth = self.anchor.depth;
        let (mut plan, messages) = match planned {
            Some(planned) => (planned.plan, planned.messages),
            None => (nothing(depth), Vec::new()),
        };
        let cmac = Cmac::new(&self.anchor.key);
        let tag = |(node, message): (Node, Vec<u8>)| (node, cmac.tag(&message));
        let mut tags: Vec<_> = messages.into_iter().map(tag).collect();
        if tags.is_empty() {
            let nodes = paths::tagged(depth, BlockIndex(index)).into_iter();
            tags = nodes.map(|node| (node, [0; 16])).collect();
        }
        tags.push((Node::ROOT, [0; 16]));
        let places = tags.len() - 1;
        for attempt in 0..2 * places {
            let place = match attempt < places {
                true => (self.draws.draw() % tags.len() as u64) as usize,
                false => attempt - places,
            };
            let (node, tag) = tags[place];
            let answer = tree::put_tag(
                &self.anchor,
                &mut plan,
                &mut self.card[..card],
                node.0,
                &tag,
            );
            self.buffer[attempt] = answer.number() as u8;
            if let Answer::Accepted(anchor) = answer {
                self.anchor = anchor;
            }
        }
        let full = plan.filled == (1 << places) - 1;
        assert_eq!(full, counted.answer.number() == 0, "every tag is put");
        counted
    }

    /// A split write whose range buffer or card is too short, or with a bit of the card flipped between plan and puts.
    fn hostile_split(&mut self, index: u64) -> Counted {
        let (card, ranges) = (self.card.len(), self.ranges.len());
        match self.draws.draw() % 3 {
            0 => self.split(index, card, 16 * self.anchor.depth as usize - 1, false),
            1 => self.split(index, card - 1, ranges, false),
            _ => self.split(index, card, ranges, true),
        }
    }

    /// The line of a step.
    fn line(&self, step: u64, kind: u64, counted: Counted) -> String {
        let Counted { answer, count } = counted;
        format!(
            "{step} {kind} {} {} {count} {} {} {} {}",
            answer.number(),
            answer.node(),
            self.anchor.root,
            adler(&self.card),
            adler(&self.buffer),
            adler(&self.ranges)
        )
    }
}

/// The whole log.
pub fn log() -> String {
    let mut log = String::new();
    let mut put = |line: String| writeln!(log, "{line}").expect("room for a line");
    for depth in DEPTHS {
        let (mut run, answer) = Run::start(depth);
        put(format!("depth {depth}"));
        put(run.line(0, FORMAT, Counted { answer, count: 0 }));
        for step in 1..=STEPS {
            let (kind, counted) = run.step();
            put(run.line(step, kind, counted));
        }
    }
    log
}

#[cfg(test)]
mod tests {
    use super::*;

    /// Known checksums.
    #[test]
    fn checksums() {
        assert_eq!(adler(b""), 1);
        assert_eq!(adler(b"Wikipedia"), 0x11e6_0398);
    }

    /// The first numbers from the state 1.
    #[test]
    fn numbers() {
        let mut draws = Draws(1);
        assert_eq!(draws.draw(), 0x4082_2041);
        assert_eq!(draws.draw(), 0x1000_4106_0c01_1441);
    }
}
