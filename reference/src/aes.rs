//! AES-128 encryption, in the steps of FIPS 197.
//!
//! The state is 16 bytes, column after column: row r of column c is at r + 4c.

use std::cell::Cell;

const ROUNDS: usize = 10;
const KEY_WORDS: usize = 4;
const EXPANDED: usize = 16 * (ROUNDS + 1);

static SUBSTITUTION: [u8; 256] = make_table();

/// The product with x, reduced by x^8 + x^4 + x^3 + x + 1.
const fn double(value: u8) -> u8 {
    let reduced = if value & 0x80 != 0 { 0x1b } else { 0 };
    (value << 1) ^ reduced
}

/// The product of two elements of the field.
const fn multiply(left: u8, right: u8) -> u8 {
    let mut product = 0;
    let mut shifted = left;
    let mut bit = 0;
    while bit < 8 {
        if (right >> bit) & 1 == 1 {
            product ^= shifted;
        }
        shifted = double(shifted);
        bit += 1;
    }
    product
}

/// The inverse in the field, zero for zero: the power 2 + 4 + 8 + ... + 128 = 254.
const fn inverse(value: u8) -> u8 {
    let mut power = value;
    let mut product = 1;
    let mut step = 0;
    while step < 7 {
        power = multiply(power, power);
        product = multiply(product, power);
        step += 1;
    }
    product
}

/// The affine map: bit i takes the bits i, i+4, i+5, i+6, i+7 (modulo 8) and bit i of 63.
const fn affine(value: u8) -> u8 {
    let mut result = 0;
    let mut i = 0;
    while i < 8 {
        let bit = (value >> i)
            ^ (value >> ((i + 4) % 8))
            ^ (value >> ((i + 5) % 8))
            ^ (value >> ((i + 6) % 8))
            ^ (value >> ((i + 7) % 8))
            ^ (0x63 >> i);
        result |= (bit & 1) << i;
        i += 1;
    }
    result
}

/// Computes the substitution of every byte.
const fn make_table() -> [u8; 256] {
    let mut table = [0; 256];
    let mut value = 0;
    while value < 256 {
        table[value] = affine(inverse(value as u8));
        value += 1;
    }
    table
}

/// The whole substitution table, S(b) at index b.
pub fn substitution_table() -> [u8; 256] {
    SUBSTITUTION
}

/// SubWord: the substitution on each byte of a word.
fn sub_word(word: [u8; 4]) -> [u8; 4] {
    word.map(|byte| SUBSTITUTION[byte as usize])
}

/// RotWord: the first byte goes to the end.
fn rot_word(word: [u8; 4]) -> [u8; 4] {
    [word[1], word[2], word[3], word[0]]
}

/// KeyExpansion: the 44 words of the 11 round keys, one after the other.
pub fn expand(key: &[u8; 16]) -> [u8; EXPANDED] {
    let mut expanded = [0; EXPANDED];
    expanded[..16].copy_from_slice(key);
    let word_at = |bytes: &[u8; EXPANDED], i: usize| -> [u8; 4] {
        [
            bytes[4 * i],
            bytes[4 * i + 1],
            bytes[4 * i + 2],
            bytes[4 * i + 3],
        ]
    };
    let mut round_constant = 1;
    for i in KEY_WORDS..EXPANDED / 4 {
        let mut word = word_at(&expanded, i - 1);
        if i % KEY_WORDS == 0 {
            word = sub_word(rot_word(word));
            word[0] ^= round_constant;
            round_constant = double(round_constant);
        }
        let earlier = word_at(&expanded, i - KEY_WORDS);
        for row in 0..4 {
            expanded[4 * i + row] = earlier[row] ^ word[row];
        }
    }
    expanded
}

/// SubBytes.
fn sub_bytes(state: &mut [u8; 16]) {
    for byte in state.iter_mut() {
        *byte = SUBSTITUTION[*byte as usize];
    }
}

/// ShiftRows: row r moves r places to the left.
fn shift_rows(state: &mut [u8; 16]) {
    let before = *state;
    for row in 0..4 {
        for column in 0..4 {
            state[row + 4 * column] = before[row + 4 * ((column + row) % 4)];
        }
    }
}

/// MixColumns: row r of a column is 2, 3, 1, 1 times the rows r, r+1, r+2, r+3 of it.
fn mix_columns(state: &mut [u8; 16]) {
    let before = *state;
    for column in 0..4 {
        for row in 0..4 {
            let at = |further: usize| before[4 * column + (row + further) % 4];
            state[4 * column + row] = double(at(0)) ^ (double(at(1)) ^ at(1)) ^ at(2) ^ at(3);
        }
    }
}

/// AddRoundKey, with the round key of that number.
fn add_round_key(state: &mut [u8; 16], expanded: &[u8; EXPANDED], round: usize) {
    for i in 0..16 {
        state[i] ^= expanded[16 * round + i];
    }
}

/// AES-128 under one key, which counts the blocks that it encrypts.
pub struct Aes128 {
    expanded: [u8; EXPANDED],
    encrypted: Cell<u64>,
}

impl Aes128 {
    /// Makes the round keys.
    pub fn new(key: &[u8; 16]) -> Self {
        Aes128 {
            expanded: expand(key),
            encrypted: Cell::new(0),
        }
    }

    /// How many blocks it has encrypted.
    pub fn encrypted(&self) -> u64 {
        self.encrypted.get()
    }

    /// Cipher: encrypts one block.
    pub fn encrypt(&self, block: &[u8; 16]) -> [u8; 16] {
        self.encrypted.set(self.encrypted.get() + 1);
        let mut state = *block;
        add_round_key(&mut state, &self.expanded, 0);
        for round in 1..ROUNDS {
            sub_bytes(&mut state);
            shift_rows(&mut state);
            mix_columns(&mut state);
            add_round_key(&mut state, &self.expanded, round);
        }
        sub_bytes(&mut state);
        shift_rows(&mut state);
        add_round_key(&mut state, &self.expanded, ROUNDS);
        state
    }
}

#[cfg(test)]
mod tests {
    use super::*;

    const KEY_B: u128 = 0x2b7e151628aed2a6abf7158809cf4f3c;

    /// FIPS 197, 4.2: the product of 57 and 83, and of 57 and 13.
    #[test]
    fn products() {
        assert_eq!(multiply(0x57, 0x83), 0xc1);
        assert_eq!(multiply(0x57, 0x13), 0xfe);
    }

    /// Every byte but zero times its inverse is one.
    #[test]
    fn inverses() {
        assert_eq!(inverse(0), 0);
        for value in 1..=255 {
            assert_eq!(multiply(value, inverse(value)), 1, "{value:02x}");
        }
    }

    /// FIPS 197, 5.1.1 (53 becomes ed), the table's corners, and no value twice.
    #[test]
    fn substitution() {
        let table = substitution_table();
        assert_eq!(table[0x53], 0xed);
        assert_eq!(
            [table[0x00], table[0x0f], table[0xf0], table[0xff]],
            [0x63, 0x76, 0x8c, 0x16]
        );
        let mut sorted = table;
        sorted.sort_unstable();
        assert!(sorted
            .iter()
            .enumerate()
            .all(|(i, &value)| i == value as usize));
    }

    /// FIPS 197, appendix A.1: the first and the last word made, and the last round key.
    #[test]
    fn appendix_a1() {
        let expanded = expand(&KEY_B.to_be_bytes());
        assert_eq!(expanded[..16], KEY_B.to_be_bytes());
        assert_eq!(expanded[16..20], 0xa0fafe17_u32.to_be_bytes());
        let last = 0xd014f9a8c9ee2589e13f0cc8b6630ca6_u128;
        assert_eq!(expanded[160..], last.to_be_bytes());
    }

    /// FIPS 197, appendix B: the state after each step of the first round.
    #[test]
    fn appendix_b_first_round() {
        let expanded = expand(&KEY_B.to_be_bytes());
        let mut state = 0x3243f6a8885a308d313198a2e0370734_u128.to_be_bytes();
        let expect = |state: &[u8; 16], value: u128| assert_eq!(*state, value.to_be_bytes());
        add_round_key(&mut state, &expanded, 0);
        expect(&state, 0x193de3bea0f4e22b9ac68d2ae9f84808);
        sub_bytes(&mut state);
        expect(&state, 0xd42711aee0bf98f1b8b45de51e415230);
        shift_rows(&mut state);
        expect(&state, 0xd4bf5d30e0b452aeb84111f11e2798e5);
        mix_columns(&mut state);
        expect(&state, 0x046681e5e0cb199a48f8d37a2806264c);
        add_round_key(&mut state, &expanded, 1);
        expect(&state, 0xa49c7ff2689f352b6b5bea43026a5049);
    }

    /// FIPS 197, appendix B: the result.
    #[test]
    fn appendix_b() {
        let block = 0x3243f6a8885a308d313198a2e0370734_u128.to_be_bytes();
        let result = Aes128::new(&KEY_B.to_be_bytes()).encrypt(&block);
        let published = 0x3925841d02dc09fbdc118597196a0b32_u128;
        assert_eq!(result, published.to_be_bytes());
    }

    /// FIPS 197, appendix C.1.
    #[test]
    fn appendix_c1() {
        let key = 0x000102030405060708090a0b0c0d0e0f_u128.to_be_bytes();
        let block = 0x00112233445566778899aabbccddeeff_u128.to_be_bytes();
        let published = 0x69c4e0d86a7b0430d8cdb78070b4c55a_u128;
        assert_eq!(Aes128::new(&key).encrypt(&block), published.to_be_bytes());
    }

    /// Each block counts once; key expansion encrypts none.
    #[test]
    fn count() {
        let cipher = Aes128::new(&KEY_B.to_be_bytes());
        for count in 0..5 {
            assert_eq!(cipher.encrypted(), count);
            cipher.encrypt(&[7; 16]);
        }
    }
}
