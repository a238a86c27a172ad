//! "The array behind demand 3": 2^n blocks, moved by the writes that were accepted and emptied by the wipes. It knows nothing
//! of card and anchor.

pub const BLOCK_BYTES: usize = 64;

type Block = [u8; BLOCK_BYTES];

/// What the array is told of a call.
#[derive(Clone, Copy, Debug)]
pub enum Told<'a> {
    Read(u64),
    Write(u64, &'a [u8]),
    Check,
    Wipe,
}

/// The blocks.
#[derive(Clone, Debug, PartialEq, Eq)]
pub struct Array {
    blocks: Vec<Block>,
}

impl Array {
    /// After format: every block zero.
    pub fn formatted(depth: u64) -> Self {
        Array {
            blocks: vec![[0; BLOCK_BYTES]; 1 << depth],
        }
    }

    /// One call of the list; an accepted read gives its block.
    pub fn step(&mut self, call: Told, accepted: bool) -> Option<&Block> {
        match call {
            Told::Read(index) if accepted => Some(self.block(index)),
            Told::Write(index, block) if accepted => {
                self.blocks[index as usize].copy_from_slice(block);
                None
            }
            Told::Wipe if accepted => {
                self.blocks.fill([0; BLOCK_BYTES]);
                None
            }
            _ => None,
        }
    }

    /// One block.
    pub fn block(&self, index: u64) -> &Block {
        &self.blocks[index as usize]
    }

    /// All blocks, as an accepted check has to find them on its card.
    pub fn blocks(&self) -> &[Block] {
        &self.blocks
    }
}

#[cfg(test)]
mod tests {
    use super::*;

    /// An accepted wipe empties it, and a refused one does not.
    #[test]
    fn emptied_by_accepted_wipes() {
        let mut array = Array::formatted(1);
        array.step(Told::Write(0, &[5; 64]), true);
        array.step(Told::Write(1, &[6; 64]), true);
        assert_eq!(array.step(Told::Wipe, false), None);
        assert_eq!(array.blocks(), [[5; 64], [6; 64]]);
        assert_eq!(array.step(Told::Wipe, true), None);
        assert_eq!(array, Array::formatted(1));
        array.step(Told::Write(1, &[7; 64]), true);
        assert_eq!(array.blocks(), [[0; 64], [7; 64]]);
    }

    /// Accepted writes move it, and nothing else in a list without wipes does.
    #[test]
    fn moved_by_accepted_writes() {
        let mut array = Array::formatted(2);
        assert_eq!(array.blocks(), [[0; 64]; 4]);
        assert_eq!(array.step(Told::Write(2, &[7; 64]), true), None);
        assert_eq!(array.step(Told::Write(2, &[8; 64]), false), None);
        assert_eq!(array.step(Told::Write(9, &[8; 3]), false), None);
        assert_eq!(array.step(Told::Check, true), None);
        assert_eq!(array.step(Told::Read(9), false), None);
        assert_eq!(array.step(Told::Read(2), true), Some(&[7; 64]));
        assert_eq!(array.blocks(), [[0; 64], [0; 64], [7; 64], [0; 64]]);
    }
}
