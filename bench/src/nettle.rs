//! Nettle's AES-128 and CMAC.

use crate::library::Library;
use crate::subject::{Chains, Mac};
use std::ffi::c_int;

/// Room for any of Nettle's contexts used here, the largest of 248 bytes.
#[repr(C, align(64))]
struct Room([u8; 1024]);

type Version = unsafe extern "C" fn() -> c_int;
type SetKey = unsafe extern "C" fn(*mut Room, *const u8);
type Encrypt = unsafe extern "C" fn(*const Room, usize, *mut u8, *const u8);
type Update = unsafe extern "C" fn(*mut Room, usize, *const u8);
type Digest = unsafe extern "C" fn(*mut Room, usize, *mut u8);

/// Opens the library.
fn open() -> Result<Library, String> {
    let library = Library::open(&["libnettle.so.8", "libnettle.so"])?;
    // SAFETY: the type is that of Nettle's headers.
    let version: Version = unsafe { library.function(c"nettle_version_major")? };
    // SAFETY: it takes nothing.
    match unsafe { version() } {
        3 => Ok(library),
        _ => Err(format!("{} is not Nettle 3", library.name)),
    }
}

/// Nettle's CMAC.
pub struct Cmac {
    room: Box<Room>,
    set_key: SetKey,
    update: Update,
    digest: Digest,
}

impl Cmac {
    /// Loads the library.
    pub fn load() -> Result<Self, String> {
        let library = open()?;
        // SAFETY: the types are those of Nettle 3's headers.
        unsafe {
            Ok(Cmac {
                room: Box::new(Room([0; 1024])),
                set_key: library.function(c"nettle_cmac_aes128_set_key")?,
                update: library.function(c"nettle_cmac_aes128_update")?,
                digest: library.function(c"nettle_cmac_aes128_digest")?,
            })
        }
    }
}

impl Mac for Cmac {
    /// One call.
    unsafe fn set_key(&mut self, key: *const u8) {
        // SAFETY: the room is large enough, and the caller answers for the key.
        unsafe { (self.set_key)(&mut *self.room, key) };
    }

    /// Two calls; the second makes the context ready for the next tag.
    #[inline]
    unsafe fn tag(&mut self, message: *const u8, length: usize, tag: *mut u8) {
        // SAFETY: the caller has set the key, and answers for message and tag.
        unsafe {
            (self.update)(&mut *self.room, length, message);
            (self.digest)(&mut *self.room, 16, tag);
        }
    }
}

/// Nettle under one key.
pub struct Nettle {
    cipher: Box<Room>,
    encrypt: Encrypt,
    cmac: Cmac,
}

impl Nettle {
    /// Loads the library and sets the key.
    pub fn load(key: &[u8; 16]) -> Result<Self, String> {
        let library = open()?;
        let mut cipher = Box::new(Room([0; 1024]));
        let mut cmac = Cmac::load()?;
        // SAFETY: the types are those of Nettle 3's headers, and the room is large enough.
        unsafe {
            let set_cipher: SetKey = library.function(c"nettle_aes128_set_encrypt_key")?;
            set_cipher(&mut *cipher, key.as_ptr());
            cmac.set_key(key.as_ptr());
            Ok(Nettle {
                cipher,
                encrypt: library.function(c"nettle_aes128_encrypt")?,
                cmac,
            })
        }
    }
}

impl Chains for Nettle {
    /// One call for each block.
    fn encrypt_chain(&mut self, block: &mut [u8; 16], count: u64) {
        let bytes = block.as_mut_ptr();
        for _ in 0..count {
            // SAFETY: the key is set, and Nettle encrypts in place.
            unsafe { (self.encrypt)(&*self.cipher, 16, bytes, bytes) };
        }
    }

    /// Tag after tag.
    fn tag_chain(&mut self, message: &mut [u8], count: u64) {
        let (bytes, length) = (message.as_mut_ptr(), message.len());
        for _ in 0..count {
            // SAFETY: the key is set, and the message has room for a tag.
            unsafe { self.cmac.tag(bytes, length, bytes) };
        }
    }
}
