//! AES-CMAC, in the steps of RFC 4493.

use crate::aes::Aes128;

/// The constant Rb of a 128-bit block: the byte that a carry adds.
const REDUCTION: u8 = 0x87;

/// The value one bit to the left, with Rb added when a bit falls out.
fn double(value: &[u8; 16]) -> [u8; 16] {
    let mut result = [0; 16];
    for i in 0..16 {
        let from_next = if i < 15 { value[i + 1] >> 7 } else { 0 };
        result[i] = (value[i] << 1) | from_next;
    }
    if value[0] & 0x80 != 0 {
        result[15] ^= REDUCTION;
    }
    result
}

/// Generate_Subkey: K1 and K2.
fn generate_subkeys(cipher: &Aes128) -> ([u8; 16], [u8; 16]) {
    let first = double(&cipher.encrypt(&[0; 16]));
    let second = double(&first);
    (first, second)
}

/// padding(x): the bytes, then one bit, then zeros.
fn pad(rest: &[u8]) -> [u8; 16] {
    let mut padded = [0; 16];
    padded[..rest.len()].copy_from_slice(rest);
    padded[rest.len()] = 0x80;
    padded
}

/// The sum of two blocks.
fn xor(left: &[u8; 16], right: &[u8; 16]) -> [u8; 16] {
    let mut sum = [0; 16];
    for i in 0..16 {
        sum[i] = left[i] ^ right[i];
    }
    sum
}

/// AES-CMAC under one key.
pub struct Cmac {
    cipher: Aes128,
    first: [u8; 16],
    second: [u8; 16],
}

impl Cmac {
    /// Makes the round keys and the two subkeys.
    pub fn new(key: &[u8; 16]) -> Self {
        let cipher = Aes128::new(key);
        let (first, second) = generate_subkeys(&cipher);
        Cmac {
            cipher,
            first,
            second,
        }
    }

    /// How many blocks AES has encrypted for it, that of the subkeys among them.
    pub fn encrypted(&self) -> u64 {
        self.cipher.encrypted()
    }

    /// K1 and K2.
    pub fn subkeys(&self) -> ([u8; 16], [u8; 16]) {
        (self.first, self.second)
    }

    /// M_last: the end of the message, complete with K1 or padded with K2.
    fn last_block(&self, rest: &[u8]) -> [u8; 16] {
        match <&[u8; 16]>::try_from(rest) {
            Ok(complete) => xor(complete, &self.first),
            Err(_) => xor(&pad(rest), &self.second),
        }
    }

    /// The tag of a message.
    pub fn tag(&self, message: &[u8]) -> [u8; 16] {
        let blocks = message.len().div_ceil(16).max(1);
        let (before, rest) = message.split_at(16 * (blocks - 1));
        let last = self.last_block(rest);
        let mut state = [0; 16];
        for start in (0..before.len()).step_by(16) {
            let mut block = [0; 16];
            block.copy_from_slice(&before[start..start + 16]);
            state = self.cipher.encrypt(&xor(&state, &block));
        }
        self.cipher.encrypt(&xor(&state, &last))
    }
}

#[cfg(test)]
mod tests {
    use super::*;

    const KEY: u128 = 0x2b7e151628aed2a6abf7158809cf4f3c;
    const MESSAGE: [u128; 4] = [
        0x6bc1bee22e409f96e93d7e117393172a,
        0xae2d8a571e03ac9c9eb76fac45af8e51,
        0x30c81c46a35ce411e5fbc1191a0a52ef,
        0xf69f2445df4f9b17ad2b417be66c3710,
    ];

    /// Expects that tag of the first bytes of the RFC's message.
    fn expect(length: usize, published: u128) {
        let message = MESSAGE.map(u128::to_be_bytes).concat();
        let tag = Cmac::new(&KEY.to_be_bytes()).tag(&message[..length]);
        assert_eq!(tag, published.to_be_bytes());
    }

    /// Document 01, row l: a bit that falls out comes back as 87.
    #[test]
    fn doubling() {
        assert_eq!(
            double(&(1_u128 << 127).to_be_bytes()),
            0x87_u128.to_be_bytes()
        );
    }

    /// RFC 4493, section 4: AES of zero under the key, K1 and K2.
    #[test]
    fn subkeys() {
        let zero = Aes128::new(&KEY.to_be_bytes()).encrypt(&[0; 16]);
        assert_eq!(zero, 0x7df76b0c1ab899b33e42f047b91b546f_u128.to_be_bytes());
        let (first, second) = Cmac::new(&KEY.to_be_bytes()).subkeys();
        assert_eq!(first, 0xfbeed618357133667c85e08f7236a8de_u128.to_be_bytes());
        assert_eq!(
            second,
            0xf7ddac306ae266ccf90bc11ee46d513b_u128.to_be_bytes()
        );
    }

    /// The blocks that AES encrypts: one for the subkeys, then those of each message, at least one.
    #[test]
    fn count() {
        let cmac = Cmac::new(&KEY.to_be_bytes());
        assert_eq!(cmac.encrypted(), 1);
        let mut all = 1;
        for (length, blocks) in [(0, 1), (1, 1), (16, 1), (17, 2), (32, 2), (73, 5), (81, 6)] {
            cmac.tag(&vec![0; length]);
            all += blocks;
            assert_eq!(cmac.encrypted(), all, "{length} bytes");
        }
    }

    /// RFC 4493, example 1: no bytes.
    #[test]
    fn example_1() {
        expect(0, 0xbb1d6929e95937287fa37d129b756746);
    }

    /// RFC 4493, example 2: one block.
    #[test]
    fn example_2() {
        expect(16, 0x070a16b46b4d4144f79bdd9dd04a287c);
    }

    /// RFC 4493, example 3: 40 bytes.
    #[test]
    fn example_3() {
        expect(40, 0xdfa66747de9ae63030ca32611497c827);
    }

    /// RFC 4493, example 4: four blocks.
    #[test]
    fn example_4() {
        expect(64, 0x51f0bebf7e3b9d92fc49741779363cfe);
    }
}
