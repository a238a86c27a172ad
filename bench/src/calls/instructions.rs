//! One block by the CPU's AES instructions alone, in a chain: what no AES of that CPU can beat.

use crate::clock::stopwatch;
use crate::subject::{Subject, KEY};
use reference::aes::expand;
use std::hint::black_box;
use std::time::Duration;

/// The round keys and the block that is encrypted again and again.
pub struct Instructions {
    keys: [[u8; 16]; 11],
    block: [u8; 16],
}

impl Instructions {
    /// None where the CPU has no such instructions.
    pub fn find() -> Option<Self> {
        let expanded = expand(&KEY);
        let (keys, _) = expanded.as_chunks();
        is_there().then(|| Instructions {
            keys: std::array::from_fn(|round| keys[round]),
            block: [0x31; 16],
        })
    }
}

impl Subject for Instructions {
    /// Times that many blocks, whatever the place.
    fn measure(&mut self, _: usize, count: u64) -> Duration {
        let Instructions { keys, block } = self;
        stopwatch(count, |count| run(keys, black_box(block), count))
    }
}

#[cfg(target_arch = "x86_64")]
fn is_there() -> bool {
    std::arch::is_x86_feature_detected!("aes")
}

/// Encrypts the block that many times.
#[cfg(target_arch = "x86_64")]
fn run(keys: &[[u8; 16]; 11], block: &mut [u8; 16], count: u64) {
    // SAFETY: an `Instructions` is only made where they are.
    unsafe { chain(keys, block, count) }
}

/// FIPS 197's ten rounds, an instruction each.
#[cfg(target_arch = "x86_64")]
#[target_feature(enable = "aes")]
unsafe fn chain(keys: &[[u8; 16]; 11], block: &mut [u8; 16], count: u64) {
    use std::arch::x86_64::*;
    // SAFETY: each pointer is to 16 bytes, and no alignment is asked for.
    unsafe {
        let keys = keys.map(|key| _mm_loadu_si128(key.as_ptr().cast()));
        let mut state = _mm_loadu_si128(block.as_ptr().cast());
        for _ in 0..count {
            state = _mm_xor_si128(state, keys[0]);
            for key in &keys[1..10] {
                state = _mm_aesenc_si128(state, *key);
            }
            state = _mm_aesenclast_si128(state, keys[10]);
        }
        _mm_storeu_si128(block.as_mut_ptr().cast(), state);
    }
}

#[cfg(not(target_arch = "x86_64"))]
fn is_there() -> bool {
    false
}

#[cfg(not(target_arch = "x86_64"))]
fn run(_: &[[u8; 16]; 11], _: &mut [u8; 16], _: u64) {
    unreachable!("there are no instructions");
}

#[cfg(test)]
mod tests {
    use super::*;
    use reference::aes::Aes128;

    /// It is AES-128.
    #[test]
    fn equals_the_reference() {
        let Some(Instructions { keys, mut block }) = Instructions::find() else {
            println!("skipped: this CPU has no AES instructions");
            return;
        };
        let mut expected = block;
        let cipher = Aes128::new(&KEY);
        (0..1_000).for_each(|_| expected = cipher.encrypt(&expected));
        run(&keys, &mut block, 1_000);
        assert_eq!(block, expected);
    }
}
