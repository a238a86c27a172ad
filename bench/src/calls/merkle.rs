//! A plain Merkle tree of SHA-256 hashes over the same blocks: what one might take instead.
//!
//! Blocks and hashes lie open, the root's hash is trusted. Its depth is fixed, so a block and a
//! pair of hashes cannot be taken for each other, and no prefix tells them apart.

use super::sha256::{Digest, Hash, OpenSsl, Plain};
use super::store::{touch, Block, Store, Stores};
use std::rc::Rc;

/// One tree: node u has the children 2u and 2u + 1, and block i is under the leaf 2^n + i.
struct Merkle {
    hash: Rc<dyn Hash>,
    root: Digest,
    hashes: Vec<Digest>,
    blocks: Vec<Block>,
    buffer: Block,
}

/// Two hashes, one after the other.
fn join(left: &Digest, right: &Digest) -> Block {
    let mut both = [0; 64];
    both[..32].copy_from_slice(left);
    both[32..].copy_from_slice(right);
    both
}

impl Merkle {
    /// A tree of that depth, not yet formatted.
    fn new(hash: Rc<dyn Hash>, depth: u32) -> Self {
        Merkle {
            hash,
            root: [0; 32],
            hashes: vec![[0; 32]; 2 << depth],
            blocks: vec![[0; 64]; 1 << depth],
            buffer: [0; 64],
        }
    }

    /// The hash that a node has to have, by its block or its children.
    fn right(&self, node: usize) -> Digest {
        match node.checked_sub(self.blocks.len()) {
            Some(index) => self.hash.hash(&self.blocks[index]),
            None => {
                let [left, right] = [2 * node, 2 * node + 1].map(|child| &self.hashes[child]);
                self.hash.hash(&join(left, right))
            }
        }
    }

    /// The root that a block leads to beside the stored hashes; each node on the way is seen.
    fn climb(&self, index: usize, block: &Block, mut see: impl FnMut(usize, Digest)) -> Digest {
        let mut node = self.blocks.len() + index;
        let mut digest = self.hash.hash(block);
        see(node, digest);
        while node > 1 {
            let sibling = &self.hashes[node ^ 1];
            let pair = match node % 2 {
                0 => join(&digest, sibling),
                _ => join(sibling, &digest),
            };
            digest = self.hash.hash(&pair);
            node /= 2;
            see(node, digest);
        }
        digest
    }

    /// Whether a block and the hashes beside its path lead to the trusted root.
    fn is_right(&self, index: usize) -> bool {
        self.climb(index, &self.blocks[index], |_, _| ()) == self.root
    }
}

impl Store for Merkle {
    fn format(&mut self) -> bool {
        self.blocks.fill([0; 64]);
        for node in (1..self.hashes.len()).rev() {
            self.hashes[node] = self.right(node);
        }
        self.root = self.hashes[1];
        true
    }

    fn read(&mut self, index: u64) -> Option<&Block> {
        let index = index as usize;
        self.buffer = self.blocks[index];
        self.is_right(index).then_some(&self.buffer)
    }

    /// Verifies the path, so that no altered hash beside it comes under the new root.
    fn write(&mut self, index: u64, block: &Block) -> bool {
        let index = index as usize;
        if !self.is_right(index) {
            return false;
        }
        let mut path = [(0, [0; 32]); 1 + super::DEEPEST as usize];
        let mut places = path.iter_mut();
        self.root = self.climb(index, block, |node, digest| {
            *places.next().expect("no path is longer") = (node, digest);
        });
        self.blocks[index] = *block;
        for (node, digest) in path.into_iter().filter(|&(node, _)| node > 0) {
            self.hashes[node] = digest;
        }
        true
    }

    fn check(&mut self) -> bool {
        let right = |node| self.hashes[node] == self.right(node);
        (1..self.hashes.len()).all(right) && self.hashes[1] == self.root
    }

    /// A format once more: it has no key or nonces to keep.
    fn wipe(&mut self) -> bool {
        self.format()
    }

    fn warm(&self) {
        touch(self.hashes.as_flattened());
        touch(self.blocks.as_flattened());
    }

    fn bytes(&self) -> Vec<u8> {
        [self.hashes.as_flattened(), self.blocks.as_flattened()].concat()
    }
}

/// OpenSSL's SHA-256, or the plain one.
fn hash() -> (Rc<dyn Hash>, &'static str) {
    match OpenSsl::load() {
        Ok(openssl) => (Rc::new(openssl), "OpenSSL's, through EVP"),
        Err(_) => (
            Rc::new(Plain::new()),
            "plain Rust, since OpenSSL is not here",
        ),
    }
}

/// Whose SHA-256 is used.
pub fn whose() -> &'static str {
    hash().1
}

/// Trees of every depth.
pub fn stores() -> Result<Stores, String> {
    let (hash, _) = hash();
    Stores::new(|depth| Box::new(Merkle::new(hash.clone(), depth)))
}

#[cfg(test)]
mod tests {
    use super::*;

    /// A tree of depth 3 with three blocks written.
    fn tree() -> Merkle {
        let mut tree = Merkle::new(Rc::new(Plain::new()), 3);
        assert!(tree.format() && tree.check());
        for index in [5, 0, 5] {
            assert!(tree.write(index, &[index as u8 + 1; 64]) && tree.check());
        }
        tree
    }

    /// Blocks come back; every path has the right hashes.
    #[test]
    fn keeps_blocks() {
        let mut tree = tree();
        for (index, byte) in [1, 0, 0, 0, 0, 6, 0, 0].into_iter().enumerate() {
            assert_eq!(tree.read(index as u64), Some(&[byte; 64]));
        }
    }

    /// An altered block is not read, and may not be replaced either.
    #[test]
    fn refuses_another_block() {
        let mut tree = tree();
        tree.blocks[5][9] ^= 1;
        assert_eq!(tree.read(5), None);
        assert!(!tree.check() && !tree.write(5, &[2; 64]));
        assert!(tree.read(4).is_some());
    }

    /// An altered hash beside a path spoils it.
    #[test]
    fn refuses_another_hash() {
        for node in 2..16 {
            let mut tree = tree();
            tree.hashes[node][31] ^= 0x80;
            let spoiled =
                |index: u64| (0..3).any(|above| (8 + index as usize) >> above == node ^ 1);
            for index in 0..8 {
                assert_eq!(tree.read(index).is_none(), spoiled(index), "{node} {index}");
                assert_eq!(tree.write(index, &[0; 64]), !spoiled(index));
                tree = self::tests::tree();
                tree.hashes[node][31] ^= 0x80;
            }
            assert!(!tree.check());
        }
    }

    /// Old blocks and hashes do not fit the new root.
    #[test]
    fn refuses_the_past() {
        let mut tree = tree();
        let old = (tree.hashes.clone(), tree.blocks.clone());
        assert!(tree.write(5, &[9; 64]));
        (tree.hashes, tree.blocks) = old;
        assert!((0..8).all(|index| tree.read(index).is_none()) && !tree.check());
    }
}
