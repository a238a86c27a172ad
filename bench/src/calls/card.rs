//! A card of one depth, and whose calls work on it.

use super::store::{touch, Block, Store};
use crate::subject::KEY;
use bindings::pat;
use reference::host::{self, ANCHOR_BYTES};
use std::rc::Rc;

/// The bytes of the longest list of ranges.
const RANGES: usize = 16 * super::DEEPEST as usize;

/// The calls, as C has them: 0 is accepted.
pub trait Calls {
    /// Makes an empty card.
    fn format(&self, anchor: &mut [u8], card: &mut [u8]) -> u64;

    /// Reads a block into the buffer.
    fn read(&self, anchor: &[u8], card: &[u8], index: u64, buffer: &mut [u8]) -> u64;

    /// Writes a block.
    fn write(
        &self,
        anchor: &mut [u8],
        card: &mut [u8],
        index: u64,
        block: &[u8],
        ranges: &mut [u8],
    ) -> u64;

    /// Checks the whole card.
    fn check(&self, anchor: &[u8], card: &[u8]) -> u64;

    /// Empties a card under the same key.
    fn wipe(&self, anchor: &mut [u8], card: &mut [u8]) -> u64;
}

/// Calls of Rust modules whose functions have those names and arguments.
macro_rules! calls {
    ($text:literal, $name:ident, $format:path, $read:path, $write:path, $check:path, $wipe:path) => {
        #[doc = $text]
        pub struct $name;

        impl Calls for $name {
            fn format(&self, anchor: &mut [u8], card: &mut [u8]) -> u64 {
                $format(anchor, card)
            }

            fn read(&self, anchor: &[u8], card: &[u8], index: u64, buffer: &mut [u8]) -> u64 {
                $read(anchor, card, index, buffer)
            }

            fn write(
                &self,
                anchor: &mut [u8],
                card: &mut [u8],
                index: u64,
                block: &[u8],
                ranges: &mut [u8],
            ) -> u64 {
                $write(anchor, card, index, block, ranges)
            }

            fn check(&self, anchor: &[u8], card: &[u8]) -> u64 {
                $check(anchor, card)
            }

            fn wipe(&self, anchor: &mut [u8], card: &mut [u8]) -> u64 {
                $wipe(anchor, card)
            }
        }
    };
}

calls!(
    "The proved calls.",
    Proved,
    pat::format,
    pat::read,
    pat::write,
    pat::check,
    pat::wipe
);
calls!(
    "The reference's calls.",
    Reference,
    host::pat_format,
    host::pat_read,
    host::pat_write,
    host::pat_check,
    host::pat_wipe
);

/// A card with its anchor.
pub struct Card {
    calls: Rc<dyn Calls>,
    pub anchor: [u8; ANCHOR_BYTES],
    pub card: Vec<u8>,
    buffer: Block,
    pub ranges: [u8; RANGES],
}

impl Card {
    /// A card of that depth, not yet formatted.
    pub fn new(calls: Rc<dyn Calls>, depth: u32) -> Self {
        let mut anchor = [0; ANCHOR_BYTES];
        anchor[..16].copy_from_slice(&KEY);
        anchor[16..24].copy_from_slice(&u64::from(depth).to_be_bytes());
        Card {
            calls,
            anchor,
            card: vec![0; card_bytes(depth)],
            buffer: [0; 64],
            ranges: [0; RANGES],
        }
    }
}

/// The length of a card.
pub fn card_bytes(depth: u32) -> usize {
    (104 << depth) - 48
}

impl Store for Card {
    fn format(&mut self) -> bool {
        self.calls.format(&mut self.anchor, &mut self.card) == 0
    }

    fn read(&mut self, index: u64) -> Option<&Block> {
        let buffer = &mut self.buffer;
        let answer = self.calls.read(&self.anchor, &self.card, index, buffer);
        (answer == 0).then_some(buffer)
    }

    fn write(&mut self, index: u64, block: &Block) -> bool {
        let Card {
            calls,
            anchor,
            card,
            ranges,
            ..
        } = self;
        calls.write(anchor, card, index, block, ranges) == 0
    }

    fn check(&mut self) -> bool {
        self.calls.check(&self.anchor, &self.card) == 0
    }

    fn wipe(&mut self) -> bool {
        self.calls.wipe(&mut self.anchor, &mut self.card) == 0
    }

    fn warm(&self) {
        touch(&self.card);
    }

    fn bytes(&self) -> Vec<u8> {
        [&self.anchor[..], &self.card].concat()
    }
}
