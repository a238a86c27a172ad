//! The count of AES calls that read, write, plan, check and wipe carry, as safe calls on slices of any length.
//!
//! Each makes the call, with all that it changes, and answers the count; where the key has not 16 bytes, or the room for a plan's
//! messages not 656, it answers 0 and changes nothing.

extern "C" {
    fn probe_count_read(
        key: *const u8,
        key_len: usize,
        depth: u64,
        root: u64,
        reserved: u64,
        card: *const u8,
        card_len: usize,
        index: u64,
        buffer: *mut u8,
        buffer_len: usize,
    ) -> u64;
    fn probe_count_write(
        key: *const u8,
        key_len: usize,
        depth: u64,
        root: u64,
        reserved: u64,
        card: *mut u8,
        card_len: usize,
        index: u64,
        block: *const u8,
        block_len: usize,
        ranges: *mut u8,
        ranges_len: usize,
    ) -> u64;
    fn probe_count_plan(
        key: *const u8,
        key_len: usize,
        depth: u64,
        root: u64,
        reserved: u64,
        card: *mut u8,
        card_len: usize,
        index: u64,
        block: *const u8,
        block_len: usize,
        ranges: *mut u8,
        ranges_len: usize,
        messages: *mut u8,
        messages_len: usize,
    ) -> u64;
    fn probe_count_check(
        key: *const u8,
        key_len: usize,
        depth: u64,
        root: u64,
        reserved: u64,
        card: *const u8,
        card_len: usize,
    ) -> u64;
    fn probe_count_wipe(
        key: *const u8,
        key_len: usize,
        depth: u64,
        root: u64,
        reserved: u64,
        card: *mut u8,
        card_len: usize,
    ) -> u64;
}

/// An anchor in its parts: key, depth, root nonce and reserved nonce.
pub type Anchor<'a> = (&'a [u8], u64, u64, u64);

/// Reads a block into the buffer of 64 bytes.
pub fn read(
    (key, depth, root, reserved): Anchor,
    card: &[u8],
    index: u64,
    buffer: &mut [u8],
) -> u64 {
    // SAFETY: the pointers and lengths are those of slices that live through the call; the one written lies apart.
    unsafe {
        probe_count_read(
            key.as_ptr(),
            key.len(),
            depth,
            root,
            reserved,
            card.as_ptr(),
            card.len(),
            index,
            buffer.as_mut_ptr(),
            buffer.len(),
        )
    }
}

/// Writes a block of 64 bytes; the range buffer gets what changed on the card.
pub fn write(
    (key, depth, root, reserved): Anchor,
    card: &mut [u8],
    index: u64,
    block: &[u8],
    ranges: &mut [u8],
) -> u64 {
    // SAFETY: the pointers and lengths are those of slices that live through the call; those written lie apart.
    unsafe {
        probe_count_write(
            key.as_ptr(),
            key.len(),
            depth,
            root,
            reserved,
            card.as_mut_ptr(),
            card.len(),
            index,
            block.as_ptr(),
            block.len(),
            ranges.as_mut_ptr(),
            ranges.len(),
        )
    }
}

/// Plans a write of a block; the range buffer gets what the write changes, the other buffer the messages.
pub fn plan(
    (key, depth, root, reserved): Anchor,
    card: &mut [u8],
    index: u64,
    block: &[u8],
    ranges: &mut [u8],
    messages: &mut [u8],
) -> u64 {
    // SAFETY: the pointers and lengths are those of slices that live through the call; those written lie apart.
    unsafe {
        probe_count_plan(
            key.as_ptr(),
            key.len(),
            depth,
            root,
            reserved,
            card.as_mut_ptr(),
            card.len(),
            index,
            block.as_ptr(),
            block.len(),
            ranges.as_mut_ptr(),
            ranges.len(),
            messages.as_mut_ptr(),
            messages.len(),
        )
    }
}

/// Checks every tag on the card.
pub fn check((key, depth, root, reserved): Anchor, card: &[u8]) -> u64 {
    // SAFETY: the pointers and lengths are those of slices that live through the call.
    unsafe {
        probe_count_check(
            key.as_ptr(),
            key.len(),
            depth,
            root,
            reserved,
            card.as_ptr(),
            card.len(),
        )
    }
}

/// Empties the card under the same key.
pub fn wipe((key, depth, root, reserved): Anchor, card: &mut [u8]) -> u64 {
    // SAFETY: the pointers and lengths are those of slices that live through the call and lie apart.
    unsafe {
        probe_count_wipe(
            key.as_ptr(),
            key.len(),
            depth,
            root,
            reserved,
            card.as_mut_ptr(),
            card.len(),
        )
    }
}
