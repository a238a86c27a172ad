//! Stores of every depth, their timed work, and that they do it rightly.

use super::card::{Calls, Card};
use super::{works, Call, Work, DEEPEST, DEPTHS};
use crate::clock::stopwatch;
use crate::subject::Subject;
use std::hint::black_box;
use std::rc::Rc;
use std::time::Duration;

/// What a store holds.
pub type Block = [u8; 64];

/// How many block numbers are drawn for each depth; a power of two. Their paths fit into a second-level cache at every depth.
pub const DRAWN: usize = 256;

/// How many different blocks are written.
const BLOCKS: usize = 32;

/// Blocks that can be read, written and checked. Each call says whether it was accepted.
pub trait Store {
    /// Makes every block zero.
    fn format(&mut self) -> bool;

    /// Gives a block, if it is the one written.
    fn read(&mut self, index: u64) -> Option<&Block>;

    /// Replaces a block.
    fn write(&mut self, index: u64, block: &Block) -> bool;

    /// Checks everything.
    fn check(&mut self) -> bool;

    /// Makes every block zero again, under the same key.
    fn wipe(&mut self) -> bool;

    /// Reads every byte, so that what fits into a cache is in it.
    fn warm(&self);

    /// Everything that the calls leave.
    fn bytes(&self) -> Vec<u8>;
}

/// Reads memory, a byte of each line of the cache.
pub fn touch(bytes: &[u8]) {
    let sum = bytes.iter().step_by(64).fold(0_u8, |sum, byte| sum ^ byte);
    black_box(sum);
}

/// Numbers that look random and are the same in every run.
struct Draws(u64);

impl Draws {
    /// The next number, by a xorshift generator; its low bits are left out.
    fn next(&mut self) -> u64 {
        self.0 ^= self.0 << 13;
        self.0 ^= self.0 >> 7;
        self.0 ^= self.0 << 17;
        self.0 >> 20
    }
}

/// Where blocks are read and written, for each depth from 1, and what is written there.
pub struct Drawn {
    indices: Vec<[u32; DRAWN]>,
    blocks: [Block; BLOCKS],
}

impl Drawn {
    /// Draws the numbers.
    pub fn new() -> Self {
        let mut draws = Draws(0x9e37_79b9_7f4a_7c15);
        let mut indices = Vec::new();
        for depth in 1..=DEEPEST {
            indices.push(std::array::from_fn(|_| draws.next() as u32 % (1 << depth)));
        }
        let blocks = std::array::from_fn(|_| std::array::from_fn(|_| draws.next() as u8));
        Drawn { indices, blocks }
    }

    /// The block's number and the block of a turn.
    pub fn turn(&self, depth: u32, turn: usize) -> (u64, &Block) {
        let index = self.indices[depth as usize - 1][turn % DRAWN];
        (u64::from(index), &self.blocks[turn % BLOCKS])
    }
}

/// One subject's stores.
pub struct Stores {
    works: Vec<Work>,
    /// For each depth from 1: a store with every drawn block written.
    filled: Vec<Box<dyn Store>>,
    /// For each depth of the tables: a store that is only formatted and wiped.
    spare: Vec<Box<dyn Store>>,
    drawn: Drawn,
    cursor: usize,
}

impl Stores {
    /// Stores of cards under those calls.
    pub fn of_cards(calls: Rc<dyn Calls>) -> Result<Self, String> {
        Self::new(|depth| Box::new(Card::new(calls.clone(), depth)))
    }

    /// Makes the stores and fills them.
    pub fn new(make: impl Fn(u32) -> Box<dyn Store>) -> Result<Self, String> {
        let mut stores = Stores {
            works: works(),
            filled: (1..=DEEPEST).map(&make).collect(),
            spare: DEPTHS.map(&make).into_iter().collect(),
            drawn: Drawn::new(),
            cursor: 0,
        };
        for depth in 1..=DEEPEST {
            stores
                .fill(depth)
                .ok_or(format!("a call at depth {depth} is refused"))?;
        }
        Ok(stores)
    }

    /// Formats a store, writes a block and wipes it, writes all drawn blocks and finds them there.
    fn fill(&mut self, depth: u32) -> Option<()> {
        let store = &mut self.filled[depth as usize - 1];
        let mut plain = vec![[0; 64]; 1 << depth];
        let accepted = |answer: bool| answer.then_some(());
        accepted(store.format())?;
        accepted(store.write(1, &self.drawn.blocks[0]))?;
        accepted(store.wipe())?;
        for turn in 0..DRAWN {
            let (index, block) = self.drawn.turn(depth, turn);
            accepted(store.write(index, block))?;
            plain[index as usize] = *block;
        }
        for (index, block) in plain.iter().enumerate().step_by(1 + (plain.len() >> 12)) {
            accepted(store.read(index as u64)? == block)?;
        }
        accepted(store.check())
    }

    /// Compares what is in the stores with another's.
    pub fn compare(&self, other: &Stores) -> Result<(), String> {
        for (depth, (ours, theirs)) in (1..).zip(self.filled.iter().zip(&other.filled)) {
            if ours.bytes() != theirs.bytes() {
                return Err(format!("cards of depth {depth} differ"));
            }
        }
        Ok(())
    }

    /// Makes a call that many times, with the drawn numbers in their order.
    fn run(&mut self, work: Work, count: u64) {
        let store = pick(&mut self.filled, &mut self.spare, work);
        let mut accepted = true;
        for _ in 0..count {
            let (index, block) = self.drawn.turn(work.depth, self.cursor);
            accepted &= match work.call {
                Call::Read => black_box(store.read(index)).is_some(),
                Call::Write => store.write(index, block),
                Call::Check => store.check(),
                Call::Format => store.format(),
                Call::Wipe => store.wipe(),
            };
            self.cursor = self.cursor.wrapping_add(1);
        }
        assert!(
            accepted,
            "a {} at depth {} is refused",
            work.call, work.depth
        );
    }
}

/// The store that a work uses: a format and a wipe have their own.
fn pick<'a>(
    filled: &'a mut [Box<dyn Store>],
    spare: &'a mut [Box<dyn Store>],
    work: Work,
) -> &'a mut dyn Store {
    match DEPTHS.iter().position(|&depth| depth == work.depth) {
        Some(place) if matches!(work.call, Call::Format | Call::Wipe) => spare[place].as_mut(),
        _ => filled[work.depth as usize - 1].as_mut(),
    }
}

impl Subject for Stores {
    /// Times a call on a warm store: the drawn blocks for a read or a write, else the whole of it.
    fn measure(&mut self, place: usize, count: u64) -> Duration {
        let work = self.works[place];
        if count > 0 {
            match work.call {
                Call::Read | Call::Write => self.run(
                    Work {
                        call: Call::Read,
                        ..work
                    },
                    DRAWN as u64,
                ),
                _ => pick(&mut self.filled, &mut self.spare, work).warm(),
            }
        }
        stopwatch(count, |count| self.run(work, count))
    }
}
