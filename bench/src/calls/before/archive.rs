//! An archive of the calls: the present one, or an older one whose names the build has changed. One from before the reserved nonce
//! takes an anchor of 32 bytes, which the longer one begins with.

use crate::calls::card::{card_bytes, Calls};
use reference::host::ANCHOR_BYTES;
use std::cell::Cell;

/// Where the root nonce lies in an anchor; the reserved nonce is behind it.
const ROOT: std::ops::Range<usize> = 24..32;

type Format = unsafe extern "C" fn(*mut u8, usize, *mut u8, usize) -> u64;
type Read = unsafe extern "C" fn(*const u8, usize, *const u8, usize, u64, *mut u8, usize) -> u64;
type Write = unsafe extern "C" fn(
    *mut u8,
    usize,
    *mut u8,
    usize,
    u64,
    *const u8,
    usize,
    *mut u8,
    usize,
) -> u64;
type Check = unsafe extern "C" fn(*const u8, usize, *const u8, usize) -> u64;

/// The functions of an archive; a wipe is called as a format is.
#[derive(Clone, Copy)]
pub struct Archive {
    pub format: Format,
    pub read: Read,
    pub write: Write,
    pub check: Check,
    pub wipe: Format,
    /// How many bytes its anchor has.
    pub anchor: usize,
}

impl Archive {
    /// Finds out how many bytes of the anchor the archive takes.
    fn measured(mut self) -> Self {
        let (mut anchor, mut card) = ([0; ANCHOR_BYTES], vec![0; card_bytes(1)]);
        anchor[23] = 1;
        // SAFETY: the pointers and lengths are those of arrays that live through the call and lie apart.
        let answer = unsafe {
            (self.format)(
                anchor.as_mut_ptr(),
                self.anchor,
                card.as_mut_ptr(),
                card.len(),
            )
        };
        if answer != 0 {
            self.anchor = ROOT.end;
        }
        self
    }

    /// What it takes of an anchor: another length stays another one.
    fn taken(&self, anchor: &[u8]) -> usize {
        match anchor.len() {
            ANCHOR_BYTES => self.anchor,
            other => other.min(self.anchor - 1),
        }
    }
}

/// Makes the reserved nonce of a whole anchor its root nonce, as after every accepted call of these, whatever the archive takes.
fn settle(anchor: &mut [u8], answer: u64) -> u64 {
    if answer == 0 {
        anchor.copy_within(ROOT, ROOT.end);
    }
    answer
}

/// The archive whose functions have these names.
macro_rules! archive {
    ($format:ident, $read:ident, $write:ident, $check:ident, $wipe:ident) => {{
        extern "C" {
            fn $format(anchor: *mut u8, anchor_len: usize, card: *mut u8, card_len: usize) -> u64;
            fn $read(
                anchor: *const u8,
                anchor_len: usize,
                card: *const u8,
                card_len: usize,
                index: u64,
                buffer: *mut u8,
                buffer_len: usize,
            ) -> u64;
            fn $write(
                anchor: *mut u8,
                anchor_len: usize,
                card: *mut u8,
                card_len: usize,
                index: u64,
                block: *const u8,
                block_len: usize,
                ranges: *mut u8,
                ranges_len: usize,
            ) -> u64;
            fn $check(
                anchor: *const u8,
                anchor_len: usize,
                card: *const u8,
                card_len: usize,
            ) -> u64;
            fn $wipe(anchor: *mut u8, anchor_len: usize, card: *mut u8, card_len: usize) -> u64;
        }
        Archive {
            format: $format,
            read: $read,
            write: $write,
            check: $check,
            wipe: $wipe,
            anchor: ANCHOR_BYTES,
        }
        .measured()
    }};
}

/// The present archive.
pub fn present() -> Archive {
    archive!(pat_format, pat_read, pat_write, pat_check, pat_wipe)
}

/// The older one, where the build has one.
#[cfg(before)]
pub fn before() -> Option<Archive> {
    Some(archive!(
        before_pat_format,
        before_pat_read,
        before_pat_write,
        before_pat_check,
        before_pat_wipe
    ))
}

/// The older one, where the build has one.
#[cfg(not(before))]
pub fn before() -> Option<Archive> {
    None
}

/// The calls of the archive whose turn it is.
impl Calls for Cell<Archive> {
    fn format(&self, anchor: &mut [u8], card: &mut [u8]) -> u64 {
        let (archive, start) = (self.get(), anchor.as_mut_ptr());
        let length = archive.taken(anchor);
        // SAFETY: the pointers and lengths are those of slices that live through the call and lie apart.
        let answer = unsafe { (archive.format)(start, length, card.as_mut_ptr(), card.len()) };
        settle(anchor, answer)
    }

    fn read(&self, anchor: &[u8], card: &[u8], index: u64, buffer: &mut [u8]) -> u64 {
        // SAFETY: the pointers and lengths are those of slices that live through the call; the one written lies apart.
        unsafe {
            (self.get().read)(
                anchor.as_ptr(),
                self.get().taken(anchor),
                card.as_ptr(),
                card.len(),
                index,
                buffer.as_mut_ptr(),
                buffer.len(),
            )
        }
    }

    fn write(
        &self,
        anchor: &mut [u8],
        card: &mut [u8],
        index: u64,
        block: &[u8],
        ranges: &mut [u8],
    ) -> u64 {
        let length = self.get().taken(anchor);
        // SAFETY: the pointers and lengths are those of slices that live through the call; those written lie apart.
        let answer = unsafe {
            (self.get().write)(
                anchor.as_mut_ptr(),
                length,
                card.as_mut_ptr(),
                card.len(),
                index,
                block.as_ptr(),
                block.len(),
                ranges.as_mut_ptr(),
                ranges.len(),
            )
        };
        settle(anchor, answer)
    }

    fn check(&self, anchor: &[u8], card: &[u8]) -> u64 {
        // SAFETY: the pointers and lengths are those of slices that live through the call.
        unsafe {
            (self.get().check)(
                anchor.as_ptr(),
                self.get().taken(anchor),
                card.as_ptr(),
                card.len(),
            )
        }
    }

    fn wipe(&self, anchor: &mut [u8], card: &mut [u8]) -> u64 {
        let (archive, start) = (self.get(), anchor.as_mut_ptr());
        let length = archive.taken(anchor);
        // SAFETY: the pointers and lengths are those of slices that live through the call and lie apart.
        let answer = unsafe { (archive.wipe)(start, length, card.as_mut_ptr(), card.len()) };
        settle(anchor, answer)
    }
}
