//! The reference as a competitor.

use crate::subject::Chains;
use reference::aes::Aes128;
use reference::cmac::Cmac;

/// The reference under one key.
pub struct Plain {
    cipher: Aes128,
    cmac: Cmac,
}

impl Plain {
    /// Makes the round keys and the subkeys.
    pub fn new(key: &[u8; 16]) -> Self {
        Plain {
            cipher: Aes128::new(key),
            cmac: Cmac::new(key),
        }
    }
}

impl Chains for Plain {
    /// Block after block.
    fn encrypt_chain(&mut self, block: &mut [u8; 16], count: u64) {
        for _ in 0..count {
            *block = self.cipher.encrypt(block);
        }
    }

    /// Tag after tag.
    fn tag_chain(&mut self, message: &mut [u8], count: u64) {
        for _ in 0..count {
            let tag = self.cmac.tag(message);
            message[..16].copy_from_slice(&tag);
        }
    }
}
