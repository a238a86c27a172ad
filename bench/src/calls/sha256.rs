//! SHA-256 of 64 bytes: OpenSSL's through EVP, or a plain one where that is missing.

use super::store::Block;
use crate::library::Library;
use crate::openssl;
use std::ffi::{c_char, c_int, c_uint, c_void};
use std::ptr::{null, null_mut};

pub type Digest = [u8; 32];

/// A hash of 64 bytes.
pub trait Hash {
    /// The hash of a block or of two hashes.
    fn hash(&self, message: &Block) -> Digest;
}

type Fetch = unsafe extern "C" fn(*mut c_void, *const c_char, *const c_char) -> *mut c_void;
type New = unsafe extern "C" fn() -> *mut c_void;
type Init = unsafe extern "C" fn(*mut c_void, *const c_void, *mut c_void) -> c_int;
type Update = unsafe extern "C" fn(*mut c_void, *const u8, usize) -> c_int;
type Final = unsafe extern "C" fn(*mut c_void, *mut u8, *mut c_uint) -> c_int;

/// OpenSSL's; the context stays until the program ends.
pub struct OpenSsl {
    context: *mut c_void,
    init: Init,
    update: Update,
    finish: Final,
}

impl OpenSsl {
    /// Loads the library and makes a context that later hashes use again.
    pub fn load() -> Result<Self, String> {
        let library: Library = openssl::open()?;
        // SAFETY: the types are those of OpenSSL 3's headers.
        unsafe {
            let fetch: Fetch = library.function(c"EVP_MD_fetch")?;
            let new: New = library.function(c"EVP_MD_CTX_new")?;
            let init: Init = library.function(c"EVP_DigestInit_ex")?;
            let method = fetch(null_mut(), c"SHA256".as_ptr(), null());
            let context = new();
            if method.is_null() || init(context, method, null_mut()) != 1 {
                return Err(format!("{} has no SHA-256", library.name));
            }
            Ok(OpenSsl {
                context,
                init,
                update: library.function(c"EVP_DigestUpdate")?,
                finish: library.function(c"EVP_DigestFinal_ex")?,
            })
        }
    }
}

impl Hash for OpenSsl {
    /// Three calls; the first makes the context ready with the method that it has.
    fn hash(&self, message: &Block) -> Digest {
        let mut digest = [0; 32];
        // SAFETY: the context has its method, and the digest has 32 bytes.
        let done = unsafe {
            (self.init)(self.context, null(), null_mut()) == 1
                && (self.update)(self.context, message.as_ptr(), message.len()) == 1
                && (self.finish)(self.context, digest.as_mut_ptr(), null_mut()) == 1
        };
        assert!(done, "OpenSSL makes a hash");
        digest
    }
}

/// FIPS 180-4 in plain steps.
pub struct Plain {
    start: [u32; 8],
    constants: [u32; 64],
}

/// The largest number whose power of that exponent is at most the value.
fn root(value: u128, exponent: u32) -> u128 {
    let mut found: u128 = 0;
    for bit in (0..40).rev() {
        let next = found | 1 << bit;
        if next.pow(exponent) <= value {
            found = next;
        }
    }
    found
}

/// The first 32 bits behind the point of the roots of the first primes (4.2.2, 5.3.3).
fn roots<const COUNT: usize>(exponent: u32) -> [u32; COUNT] {
    let is_prime = |n: &u128| !(2..*n).any(|divisor| n.is_multiple_of(divisor));
    let mut primes = (2_u128..).filter(is_prime);
    std::array::from_fn(|_| {
        let prime = primes.next().expect("primes have no end");
        root(prime << (32 * exponent), exponent) as u32
    })
}

impl Plain {
    /// Computes the constants.
    pub fn new() -> Self {
        Plain {
            start: roots(2),
            constants: roots(3),
        }
    }

    /// The schedule of one block (6.2.2, step 1).
    fn schedule(block: &Block) -> [u32; 64] {
        let mut words = [0_u32; 64];
        for (word, bytes) in words.iter_mut().zip(block.as_chunks().0) {
            *word = u32::from_be_bytes(*bytes);
        }
        for t in 16..64 {
            let (early, late) = (words[t - 15], words[t - 2]);
            let early = early.rotate_right(7) ^ early.rotate_right(18) ^ (early >> 3);
            let late = late.rotate_right(17) ^ late.rotate_right(19) ^ (late >> 10);
            let sum = words[t - 16].wrapping_add(words[t - 7]);
            words[t] = sum.wrapping_add(early).wrapping_add(late);
        }
        words
    }

    /// One block into the state (6.2.2, steps 2 to 4).
    fn compress(&self, state: &mut [u32; 8], block: &Block) {
        let [mut a, mut b, mut c, mut d, mut e, mut f, mut g, mut h] = *state;
        for (word, constant) in Self::schedule(block).iter().zip(&self.constants) {
            let turned = e.rotate_right(6) ^ e.rotate_right(11) ^ e.rotate_right(25);
            let chosen = (e & f) ^ (!e & g);
            let sum = word.wrapping_add(*constant).wrapping_add(chosen);
            let first = h.wrapping_add(turned).wrapping_add(sum);
            let turned = a.rotate_right(2) ^ a.rotate_right(13) ^ a.rotate_right(22);
            let majority = (a & b) ^ (a & c) ^ (b & c);
            (h, g, f, e) = (g, f, e, d.wrapping_add(first));
            (d, c, b) = (c, b, a);
            a = first.wrapping_add(turned.wrapping_add(majority));
        }
        for (old, new) in state.iter_mut().zip([a, b, c, d, e, f, g, h]) {
            *old = old.wrapping_add(new);
        }
    }
}

impl Hash for Plain {
    /// The message fills one block, and the padding with its length of 512 bits a second.
    fn hash(&self, message: &Block) -> Digest {
        let mut padding = [0; 64];
        padding[0] = 0x80;
        padding[56..].copy_from_slice(&512_u64.to_be_bytes());
        let mut state = self.start;
        self.compress(&mut state, message);
        self.compress(&mut state, &padding);
        let mut digest = [0; 32];
        for (four, word) in digest.chunks_exact_mut(4).zip(state) {
            four.copy_from_slice(&word.to_be_bytes());
        }
        digest
    }
}

#[cfg(test)]
mod tests {
    use super::*;

    /// FIPS 180-4, 4.2.2 and 5.3.3: the first and the last constants.
    #[test]
    fn constants() {
        let Plain { start, constants } = Plain::new();
        assert_eq!((start[0], start[7]), (0x6a09e667, 0x5be0cd19));
        assert_eq!((constants[0], constants[63]), (0x428a2f98, 0xc67178f2));
    }

    /// Both agree, where OpenSSL is there.
    #[test]
    fn agree() {
        let Ok(openssl) = OpenSsl::load() else {
            println!("skipped: OpenSSL is not here");
            return;
        };
        let plain = Plain::new();
        for seed in 0..200_usize {
            let message = std::array::from_fn(|i| ((i + 7) * (seed + i) % 251) as u8);
            assert_eq!(openssl.hash(&message), plain.hash(&message));
        }
    }
}
