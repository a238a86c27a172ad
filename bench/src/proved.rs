//! The proved code, in the archives that are linked.

use crate::subject::Chains;

/// The proved code under one key; each chain makes its table and its context first.
pub struct Proved {
    key: [u8; 16],
}

impl Proved {
    /// Keeps the key.
    pub fn new(key: &[u8; 16]) -> Self {
        Proved { key: *key }
    }
}

impl Chains for Proved {
    /// One call for the whole chain.
    fn encrypt_chain(&mut self, block: &mut [u8; 16], count: u64) {
        let answer = bindings::encrypt_chain(&self.key, block, count);
        assert_eq!(answer, 0, "a block of 16 bytes is encrypted");
    }

    /// One call for the whole chain.
    fn tag_chain(&mut self, message: &mut [u8], count: u64) {
        let answer = bindings::tag_chain(&self.key, message, count);
        assert_eq!(answer, 0, "a message of 16 bytes or more is tagged");
    }
}
