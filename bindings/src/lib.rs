//! The functions of the proved code's archives, as safe calls on slices of any length.
//!
//! Those of the cipher and CMAC are here: each answers 0 when it did its work and 1 when a length is not the one wanted.

pub mod count;
pub mod pat;

extern "C" {
    fn probe_sbox(out: *mut u8, out_len: usize) -> u64;
    fn probe_expand(key: *const u8, key_len: usize, out: *mut u8, out_len: usize) -> u64;
    fn probe_encrypt(
        key: *const u8,
        key_len: usize,
        block: *const u8,
        block_len: usize,
        out: *mut u8,
        out_len: usize,
    ) -> u64;
    fn probe_subkeys(key: *const u8, key_len: usize, out: *mut u8, out_len: usize) -> u64;
    fn probe_tag(
        key: *const u8,
        key_len: usize,
        message: *const u8,
        message_len: usize,
        out: *mut u8,
        out_len: usize,
    ) -> u64;
    fn probe_encrypt_chain(
        key: *const u8,
        key_len: usize,
        block: *mut u8,
        block_len: usize,
        count: u64,
    ) -> u64;
    fn probe_tag_chain(
        key: *const u8,
        key_len: usize,
        message: *mut u8,
        message_len: usize,
        count: u64,
    ) -> u64;
}

/// Writes the substitution table: 256 bytes.
pub fn sbox(out: &mut [u8]) -> u64 {
    // SAFETY: the pointer and the length are those of a slice that lives through the call.
    unsafe { probe_sbox(out.as_mut_ptr(), out.len()) }
}

/// Writes the 176 bytes of the round keys of a key of 16.
pub fn expand(key: &[u8], out: &mut [u8]) -> u64 {
    // SAFETY: the pointers and lengths are those of slices that live through the call.
    unsafe { probe_expand(key.as_ptr(), key.len(), out.as_mut_ptr(), out.len()) }
}

/// Encrypts one block: 16 bytes each.
pub fn encrypt(key: &[u8], block: &[u8], out: &mut [u8]) -> u64 {
    // SAFETY: the pointers and lengths are those of slices that live through the call.
    unsafe {
        probe_encrypt(
            key.as_ptr(),
            key.len(),
            block.as_ptr(),
            block.len(),
            out.as_mut_ptr(),
            out.len(),
        )
    }
}

/// Writes K1, then K2: 32 bytes.
pub fn subkeys(key: &[u8], out: &mut [u8]) -> u64 {
    // SAFETY: the pointers and lengths are those of slices that live through the call.
    unsafe { probe_subkeys(key.as_ptr(), key.len(), out.as_mut_ptr(), out.len()) }
}

/// Writes the 16 bytes of the tag of a message of any length.
pub fn tag(key: &[u8], message: &[u8], out: &mut [u8]) -> u64 {
    // SAFETY: the pointers and lengths are those of slices that live through the call.
    unsafe {
        probe_tag(
            key.as_ptr(),
            key.len(),
            message.as_ptr(),
            message.len(),
            out.as_mut_ptr(),
            out.len(),
        )
    }
}

/// Encrypts the block that many times, one after the other.
pub fn encrypt_chain(key: &[u8], block: &mut [u8], count: u64) -> u64 {
    // SAFETY: the pointers and lengths are those of slices that live through the call.
    unsafe {
        probe_encrypt_chain(
            key.as_ptr(),
            key.len(),
            block.as_mut_ptr(),
            block.len(),
            count,
        )
    }
}

/// That many times, puts the tag of the message (16 bytes or more) in place of its start.
pub fn tag_chain(key: &[u8], message: &mut [u8], count: u64) -> u64 {
    // SAFETY: the pointers and lengths are those of slices that live through the call.
    unsafe {
        probe_tag_chain(
            key.as_ptr(),
            key.len(),
            message.as_mut_ptr(),
            message.len(),
            count,
        )
    }
}
