//! The tree in plain C (bench/c/tree.c) over a library's CMAC.

use super::card::Calls;
use crate::subject::Mac;
use std::ffi::c_void;
use std::marker::PhantomData;

/// struct tree_cmac of tree.h.
#[repr(C)]
struct TreeCmac {
    context: *mut c_void,
    set_key: unsafe extern "C" fn(*mut c_void, *const u8),
    tag: unsafe extern "C" fn(*mut c_void, *const u8, usize, *mut u8),
}

extern "C" {
    fn tree_format(
        cmac: *const TreeCmac,
        anchor: *mut u8,
        anchor_len: usize,
        card: *mut u8,
        card_len: usize,
    ) -> u64;
    fn tree_read(
        cmac: *const TreeCmac,
        anchor: *const u8,
        anchor_len: usize,
        card: *const u8,
        card_len: usize,
        index: u64,
        buffer: *mut u8,
        buffer_len: usize,
    ) -> u64;
    fn tree_write(
        cmac: *const TreeCmac,
        anchor: *mut u8,
        anchor_len: usize,
        card: *mut u8,
        card_len: usize,
        index: u64,
        block: *const u8,
        block_len: usize,
        ranges: *mut u8,
        ranges_len: usize,
    ) -> u64;
    fn tree_check(
        cmac: *const TreeCmac,
        anchor: *const u8,
        anchor_len: usize,
        card: *const u8,
        card_len: usize,
    ) -> u64;
    fn tree_wipe(
        cmac: *const TreeCmac,
        anchor: *mut u8,
        anchor_len: usize,
        card: *mut u8,
        card_len: usize,
    ) -> u64;
}

/// The tree over one library; the library's context stays until the program ends.
pub struct Tree<M> {
    cmac: TreeCmac,
    library: PhantomData<M>,
}

/// Sets the key of the library's context.
unsafe extern "C" fn set_key<M: Mac>(context: *mut c_void, key: *const u8) {
    // SAFETY: the context is the one that `new` made, and the tree's key has 16 bytes.
    unsafe { (*context.cast::<M>()).set_key(key) }
}

/// Makes a tag by the library's context.
unsafe extern "C" fn tag<M: Mac>(
    context: *mut c_void,
    message: *const u8,
    length: usize,
    out: *mut u8,
) {
    // SAFETY: the context is the one that `new` made; the tree sets the key first and has room.
    unsafe { (*context.cast::<M>()).tag(message, length, out) }
}

impl<M: Mac> Tree<M> {
    /// Takes a library's CMAC.
    pub fn new(library: M) -> Self {
        Tree {
            cmac: TreeCmac {
                context: Box::into_raw(Box::new(library)).cast(),
                set_key: set_key::<M>,
                tag: tag::<M>,
            },
            library: PhantomData,
        }
    }
}

impl<M: Mac> Calls for Tree<M> {
    fn format(&self, anchor: &mut [u8], card: &mut [u8]) -> u64 {
        let (anchor, anchor_len) = (anchor.as_mut_ptr(), anchor.len());
        // SAFETY: the pointers and lengths are those of slices that live through the call.
        unsafe {
            tree_format(
                &self.cmac,
                anchor,
                anchor_len,
                card.as_mut_ptr(),
                card.len(),
            )
        }
    }

    fn read(&self, anchor: &[u8], card: &[u8], index: u64, buffer: &mut [u8]) -> u64 {
        // SAFETY: the pointers and lengths are those of slices that live through the call.
        unsafe {
            tree_read(
                &self.cmac,
                anchor.as_ptr(),
                anchor.len(),
                card.as_ptr(),
                card.len(),
                index,
                buffer.as_mut_ptr(),
                buffer.len(),
            )
        }
    }

    fn write(
        &self,
        anchor: &mut [u8],
        card: &mut [u8],
        index: u64,
        block: &[u8],
        ranges: &mut [u8],
    ) -> u64 {
        // SAFETY: the pointers and lengths are those of slices that live through the call.
        unsafe {
            tree_write(
                &self.cmac,
                anchor.as_mut_ptr(),
                anchor.len(),
                card.as_mut_ptr(),
                card.len(),
                index,
                block.as_ptr(),
                block.len(),
                ranges.as_mut_ptr(),
                ranges.len(),
            )
        }
    }

    fn check(&self, anchor: &[u8], card: &[u8]) -> u64 {
        let (anchor, anchor_len) = (anchor.as_ptr(), anchor.len());
        // SAFETY: the pointers and lengths are those of slices that live through the call.
        unsafe { tree_check(&self.cmac, anchor, anchor_len, card.as_ptr(), card.len()) }
    }

    fn wipe(&self, anchor: &mut [u8], card: &mut [u8]) -> u64 {
        let (anchor, anchor_len) = (anchor.as_mut_ptr(), anchor.len());
        // SAFETY: the pointers and lengths are those of slices that live through the call.
        unsafe {
            tree_wipe(
                &self.cmac,
                anchor,
                anchor_len,
                card.as_mut_ptr(),
                card.len(),
            )
        }
    }
}

#[cfg(test)]
mod tests {
    use super::super::card::Card;
    use super::super::store::Store;
    use super::super::{Call, Work, DEEPEST};
    use super::*;
    use reference::cmac::Cmac;
    use std::cell::Cell;
    use std::rc::Rc;

    /// The reference's CMAC, which counts how often AES is applied.
    struct Counting {
        cmac: Cmac,
        made: Rc<Cell<u64>>,
    }

    impl Mac for Counting {
        unsafe fn set_key(&mut self, key: *const u8) {
            // SAFETY: a key has 16 bytes.
            self.cmac = Cmac::new(unsafe { &*key.cast() });
            self.made.set(self.made.get() + self.cmac.encrypted());
        }

        unsafe fn tag(&mut self, message: *const u8, length: usize, tag: *mut u8) {
            let before = self.cmac.encrypted();
            // SAFETY: the tree answers for both.
            unsafe {
                let made = self.cmac.tag(std::slice::from_raw_parts(message, length));
                tag.copy_from(made.as_ptr(), made.len());
            }
            let blocks = self.cmac.encrypted() - before;
            self.made.set(self.made.get() + blocks);
        }
    }

    /// The limit counts what the tree really does.
    #[test]
    fn aes_calls() {
        let made = Rc::new(Cell::new(0));
        let counting = Counting {
            cmac: Cmac::new(&[0; 16]),
            made: made.clone(),
        };
        let calls = Rc::new(Tree::new(counting));
        for depth in [1, 2, 3, 4, 10, DEEPEST] {
            let mut card = Card::new(calls.clone(), depth);
            let mut expect = |call, run: &mut dyn FnMut(&mut Card) -> bool| {
                made.set(0);
                assert!(run(&mut card));
                assert_eq!(
                    made.get(),
                    Work { call, depth }.aes_calls(),
                    "{call}, {depth}"
                );
            };
            expect(Call::Format, &mut Card::format);
            expect(Call::Write, &mut |card| card.write(1, &[7; 64]));
            expect(Call::Read, &mut |card| card.read(1) == Some(&[7; 64]));
            expect(Call::Check, &mut Card::check);
            expect(Call::Wipe, &mut Card::wipe);
        }
    }
}
