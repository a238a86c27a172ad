//! AES-128 and CMAC in plain Rust with one table of 256 entries of eight bytes.
//!
//! Entry b is the column 2s, s, s, 3s that MixColumns makes of s = S(b) in row 0, written
//! twice, first byte lowest: the rows 0 to 3 add its four bytes from byte 0, 3, 2 and 1.

use crate::subject::Chains;
use reference::aes::{expand, substitution_table};

/// Four columns, row 0 lowest.
type State = [u32; 4];

/// Where in an entry the columns of the rows 0 to 3 begin, in bits.
const WINDOWS: [u32; 4] = [0, 24, 16, 8];

/// Where four bytes of an entry begin that have s itself in row 0 to 3, in bits.
const LAST_WINDOWS: [u32; 4] = [8, 0, 0, 24];

/// The table and what is made of one key.
pub struct Table {
    entries: [u64; 256],
    keys: [State; 11],
    first: State,
    second: State,
}

/// Makes the entry of a substituted byte.
fn entry(substituted: u8) -> u64 {
    let doubled = (substituted << 1) ^ ((substituted >> 7) * 0x1b);
    let column = [doubled, substituted, substituted, doubled ^ substituted];
    let column = u64::from(u32::from_le_bytes(column));
    column | column << 32
}

/// The columns of sixteen bytes.
#[inline(always)]
fn load(bytes: &[u8; 16]) -> State {
    let columns = bytes.as_chunks().0;
    std::array::from_fn(|i| u32::from_le_bytes(columns[i]))
}

/// The sixteen bytes of the columns.
#[inline(always)]
fn store(state: State) -> [u8; 16] {
    let mut bytes = [0; 16];
    for (four, column) in bytes.chunks_exact_mut(4).zip(state) {
        four.copy_from_slice(&column.to_le_bytes());
    }
    bytes
}

/// The sum of two states.
#[inline(always)]
fn xor(left: State, right: State) -> State {
    std::array::from_fn(|i| left[i] ^ right[i])
}

/// The columns of fewer than sixteen bytes and their padding.
#[inline(always)]
fn pad(rest: &[u8]) -> State {
    let mut bytes = [0; 16];
    bytes[..rest.len()].copy_from_slice(rest);
    bytes[rest.len()] = 0x80;
    load(&bytes)
}

/// The value one bit to the left, as CMAC's subkeys are made.
fn double(state: State) -> State {
    let value = u128::from_be_bytes(store(state));
    let doubled = (value << 1) ^ ((value >> 127) * 0x87);
    load(&doubled.to_be_bytes())
}

impl Table {
    /// Makes the table, the round keys and the subkeys.
    pub fn new(key: &[u8; 16]) -> Self {
        let expanded = expand(key);
        let (keys, _) = expanded.as_chunks::<16>();
        let mut made = Table {
            entries: substitution_table().map(entry),
            keys: std::array::from_fn(|round| load(&keys[round])),
            first: [0; 4],
            second: [0; 4],
        };
        made.first = double(made.encrypt([0; 4]));
        made.second = double(made.first);
        made
    }

    /// Four bytes of the entry of the byte in a row of a column.
    #[inline(always)]
    fn window(&self, column: u32, row: usize, windows: [u32; 4]) -> u32 {
        let byte = (column >> (8 * row)) as u8;
        (self.entries[byte as usize] >> windows[row]) as u32
    }

    /// Encrypts one block.
    #[inline(always)]
    fn encrypt(&self, block: State) -> State {
        let mut state = xor(block, self.keys[0]);
        for key in &self.keys[1..10] {
            state = std::array::from_fn(|i| {
                let row = |row: usize| self.window(state[(i + row) % 4], row, WINDOWS);
                key[i] ^ row(0) ^ row(1) ^ row(2) ^ row(3)
            });
        }
        std::array::from_fn(|i| {
            let window = |row: usize| self.window(state[(i + row) % 4], row, LAST_WINDOWS);
            let row = |row: usize| window(row) & (0xff << (8 * row));
            self.keys[10][i] ^ (row(0) | row(1) | row(2) | row(3))
        })
    }

    /// The tag of a message.
    #[inline(always)]
    fn tag(&self, message: &[u8]) -> State {
        let blocks = message.len().div_ceil(16).max(1);
        let (before, rest) = message.split_at(16 * (blocks - 1));
        let last = store(match <&[u8; 16]>::try_from(rest) {
            Ok(complete) => xor(load(complete), self.first),
            Err(_) => xor(pad(rest), self.second),
        });
        let mut state = [0; 4];
        for block in before.as_chunks().0.iter().chain([&last]) {
            state = self.encrypt(xor(state, load(block)));
        }
        state
    }
}

impl Chains for Table {
    /// Keeps the columns from block to block.
    fn encrypt_chain(&mut self, block: &mut [u8; 16], count: u64) {
        let mut state = load(block);
        for _ in 0..count {
            state = self.encrypt(state);
        }
        *block = store(state);
    }

    /// Tags the message again and again.
    fn tag_chain(&mut self, message: &mut [u8], count: u64) {
        for _ in 0..count {
            let tag = store(self.tag(message));
            message[..16].copy_from_slice(&tag);
        }
    }
}
