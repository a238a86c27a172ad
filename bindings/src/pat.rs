//! The product's archive: format, read, write, journalled or not, recovery, the write's plan and the put of a tag, check and wipe,
//! as safe calls on slices of any length.
//!
//! Each answers 0 when accepted, else the number of the refusal plus 256 times the node.

extern "C" {
    fn pat_format(anchor: *mut u8, anchor_len: usize, card: *mut u8, card_len: usize) -> u64;
    fn pat_read(
        anchor: *const u8,
        anchor_len: usize,
        card: *const u8,
        card_len: usize,
        index: u64,
        buffer: *mut u8,
        buffer_len: usize,
    ) -> u64;
    fn pat_write(
        anchor: *mut u8,
        anchor_len: usize,
        card: *mut u8,
        card_len: usize,
        index: u64,
        block: *const u8,
        block_len: usize,
        ranges: *mut u8,
        ranges_len: usize,
    ) -> u64;
    fn pat_write_journalled(
        anchor: *mut u8,
        anchor_len: usize,
        raised: *mut u8,
        raised_len: usize,
        card: *mut u8,
        card_len: usize,
        index: u64,
        block: *const u8,
        block_len: usize,
        ranges: *mut u8,
        ranges_len: usize,
        journal: *mut u8,
        journal_len: usize,
    ) -> u64;
    fn pat_recover(
        anchor: *const u8,
        anchor_len: usize,
        card: *mut u8,
        card_len: usize,
        journal: *const u8,
        journal_len: usize,
    ) -> u64;
    fn pat_plan(
        anchor: *mut u8,
        anchor_len: usize,
        card: *mut u8,
        card_len: usize,
        index: u64,
        block: *const u8,
        block_len: usize,
        ranges: *mut u8,
        ranges_len: usize,
        plan: *mut u8,
        plan_len: usize,
        messages: *mut u8,
        messages_len: usize,
    ) -> u64;
    fn pat_put_tag(
        anchor: *mut u8,
        anchor_len: usize,
        plan: *mut u8,
        plan_len: usize,
        card: *mut u8,
        card_len: usize,
        node: u64,
        tag: *const u8,
        tag_len: usize,
    ) -> u64;
    fn pat_check(anchor: *const u8, anchor_len: usize, card: *const u8, card_len: usize) -> u64;
    fn pat_wipe(anchor: *mut u8, anchor_len: usize, card: *mut u8, card_len: usize) -> u64;
}

/// Makes a fresh card for the key and depth of the anchor, and sets the anchor's root nonce and reserved nonce to 0.
pub fn format(anchor: &mut [u8], card: &mut [u8]) -> u64 {
    // SAFETY: the pointers and lengths are those of slices that live through the call and lie apart.
    unsafe {
        pat_format(
            anchor.as_mut_ptr(),
            anchor.len(),
            card.as_mut_ptr(),
            card.len(),
        )
    }
}

/// Reads a block into the buffer of 64 bytes.
pub fn read(anchor: &[u8], card: &[u8], index: u64, buffer: &mut [u8]) -> u64 {
    // SAFETY: the pointers and lengths are those of slices that live through the call; the one written lies apart.
    unsafe {
        pat_read(
            anchor.as_ptr(),
            anchor.len(),
            card.as_ptr(),
            card.len(),
            index,
            buffer.as_mut_ptr(),
            buffer.len(),
        )
    }
}

/// Writes a block of 64 bytes; the range buffer gets what changed on the card.
pub fn write(
    anchor: &mut [u8],
    card: &mut [u8],
    index: u64,
    block: &[u8],
    ranges: &mut [u8],
) -> u64 {
    // SAFETY: the pointers and lengths are those of slices that live through the call; those written lie apart.
    unsafe {
        pat_write(
            anchor.as_mut_ptr(),
            anchor.len(),
            card.as_mut_ptr(),
            card.len(),
            index,
            block.as_ptr(),
            block.len(),
            ranges.as_mut_ptr(),
            ranges.len(),
        )
    }
}

/// Writes a block of 64 bytes and fills the journal of 56n + 80 bytes; the second anchor gets what goes out first.
pub fn write_journalled(
    anchor: &mut [u8],
    raised: &mut [u8],
    card: &mut [u8],
    index: u64,
    block: &[u8],
    ranges: &mut [u8],
    journal: &mut [u8],
) -> u64 {
    // SAFETY: the pointers and lengths are those of slices that live through the call; those written lie apart.
    unsafe {
        pat_write_journalled(
            anchor.as_mut_ptr(),
            anchor.len(),
            raised.as_mut_ptr(),
            raised.len(),
            card.as_mut_ptr(),
            card.len(),
            index,
            block.as_ptr(),
            block.len(),
            ranges.as_mut_ptr(),
            ranges.len(),
            journal.as_mut_ptr(),
            journal.len(),
        )
    }
}

/// Puts the bytes of a journal that has the anchor's root nonce and a right tag into its ranges of the card.
pub fn recover(anchor: &[u8], card: &mut [u8], journal: &[u8]) -> u64 {
    // SAFETY: the pointers and lengths are those of slices that live through the call; the one written lies apart.
    unsafe {
        pat_recover(
            anchor.as_ptr(),
            anchor.len(),
            card.as_mut_ptr(),
            card.len(),
            journal.as_ptr(),
            journal.len(),
        )
    }
}

/// Plans a write: all of it but its tags, whose messages go to a buffer of 656 bytes; the plan's 24 bytes are for the puts. The
/// anchor gets the next reserved nonce.
pub fn plan(
    anchor: &mut [u8],
    card: &mut [u8],
    index: u64,
    block: &[u8],
    ranges: &mut [u8],
    plan: &mut [u8],
    messages: &mut [u8],
) -> u64 {
    // SAFETY: the pointers and lengths are those of slices that live through the call; those written lie apart.
    unsafe {
        pat_plan(
            anchor.as_mut_ptr(),
            anchor.len(),
            card.as_mut_ptr(),
            card.len(),
            index,
            block.as_ptr(),
            block.len(),
            ranges.as_mut_ptr(),
            ranges.len(),
            plan.as_mut_ptr(),
            plan.len(),
            messages.as_mut_ptr(),
            messages.len(),
        )
    }
}

/// Puts a tag of 16 bytes at a node that the plan waits for; the last one puts the plan's root nonce into the anchor.
pub fn put_tag(anchor: &mut [u8], plan: &mut [u8], card: &mut [u8], node: u64, tag: &[u8]) -> u64 {
    // SAFETY: the pointers and lengths are those of slices that live through the call; those written lie apart.
    unsafe {
        pat_put_tag(
            anchor.as_mut_ptr(),
            anchor.len(),
            plan.as_mut_ptr(),
            plan.len(),
            card.as_mut_ptr(),
            card.len(),
            node,
            tag.as_ptr(),
            tag.len(),
        )
    }
}

/// Checks every tag on the card.
pub fn check(anchor: &[u8], card: &[u8]) -> u64 {
    // SAFETY: the pointers and lengths are those of slices that live through the call.
    unsafe { pat_check(anchor.as_ptr(), anchor.len(), card.as_ptr(), card.len()) }
}

/// Empties the card under the same key, and puts the next root nonce and reserved nonce into the anchor.
pub fn wipe(anchor: &mut [u8], card: &mut [u8]) -> u64 {
    // SAFETY: the pointers and lengths are those of slices that live through the call and lie apart.
    unsafe {
        pat_wipe(
            anchor.as_mut_ptr(),
            anchor.len(),
            card.as_mut_ptr(),
            card.len(),
        )
    }
}
