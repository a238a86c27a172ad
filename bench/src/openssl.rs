//! OpenSSL's AES-128 and CMAC, through the calls a user makes.

use crate::library::Library;
use crate::subject::{Chains, Mac};
use std::ffi::{c_char, c_int, c_uint, c_void, CStr};
use std::ptr::{null, null_mut};

/// OSSL_PARAM, by which a CMAC learns its cipher.
#[repr(C)]
struct Parameter {
    key: *const c_char,
    data_type: c_uint,
    data: *const c_void,
    data_size: usize,
    return_size: usize,
}

/// OSSL_PARAM_UTF8_STRING.
const TEXT: c_uint = 4;

impl Parameter {
    /// What ends a list of parameters.
    const END: Parameter = Parameter {
        key: null(),
        data_type: 0,
        data: null(),
        data_size: 0,
        return_size: 0,
    };

    /// The parameter that names a cipher.
    fn cipher(name: &'static CStr) -> Self {
        Parameter {
            key: c"cipher".as_ptr(),
            data_type: TEXT,
            data: name.as_ptr().cast(),
            data_size: name.count_bytes(),
            return_size: usize::MAX,
        }
    }
}

type New = unsafe extern "C" fn() -> *mut c_void;
type EncryptInit =
    unsafe extern "C" fn(*mut c_void, *const c_void, *mut c_void, *const u8, *const u8) -> c_int;
type SetPadding = unsafe extern "C" fn(*mut c_void, c_int) -> c_int;
type EncryptUpdate =
    unsafe extern "C" fn(*mut c_void, *mut u8, *mut c_int, *const u8, c_int) -> c_int;
type MacFetch = unsafe extern "C" fn(*mut c_void, *const c_char, *const c_char) -> *mut c_void;
type MacNew = unsafe extern "C" fn(*mut c_void) -> *mut c_void;
type MacSet = unsafe extern "C" fn(*mut c_void, *const Parameter) -> c_int;
type MacInit = unsafe extern "C" fn(*mut c_void, *const u8, usize, *const Parameter) -> c_int;
type MacUpdate = unsafe extern "C" fn(*mut c_void, *const u8, usize) -> c_int;
type MacFinal = unsafe extern "C" fn(*mut c_void, *mut u8, *mut usize, usize) -> c_int;

/// Opens the library.
pub fn open() -> Result<Library, String> {
    Library::open(&["libcrypto.so.3", "libcrypto.so"])
}

/// OpenSSL's CMAC; its context stays until the program ends.
pub struct Cmac {
    context: *mut c_void,
    init: MacInit,
    update: MacUpdate,
    finish: MacFinal,
    /// Whether the context waits for a message; else it has to be made ready again.
    ready: bool,
}

impl Cmac {
    /// Loads the library and makes a context of CMAC with AES-128-CBC.
    pub fn load() -> Result<Self, String> {
        let library = open()?;
        let parameters = [Parameter::cipher(c"AES-128-CBC"), Parameter::END];
        // SAFETY: the types are those of OpenSSL 3's headers, and END ends the list.
        unsafe {
            let fetch: MacFetch = library.function(c"EVP_MAC_fetch")?;
            let new: MacNew = library.function(c"EVP_MAC_CTX_new")?;
            let set: MacSet = library.function(c"EVP_MAC_CTX_set_params")?;
            let method = fetch(null_mut(), c"CMAC".as_ptr(), null());
            if method.is_null() {
                return Err(format!("{} has no CMAC", library.name));
            }
            let context = new(method);
            if set(context, parameters.as_ptr()) != 1 {
                return Err(format!("{} makes no CMAC", library.name));
            }
            Ok(Cmac {
                context,
                init: library.function(c"EVP_MAC_init")?,
                update: library.function(c"EVP_MAC_update")?,
                finish: library.function(c"EVP_MAC_final")?,
                ready: false,
            })
        }
    }
}

impl Mac for Cmac {
    /// One call.
    unsafe fn set_key(&mut self, key: *const u8) {
        // SAFETY: the caller answers for the key.
        let done = unsafe { (self.init)(self.context, key, 16, null()) };
        assert_eq!(done, 1, "OpenSSL sets a key");
        self.ready = true;
    }

    /// Two calls, and before each tag but the first one more, which keeps the key.
    #[inline]
    unsafe fn tag(&mut self, message: *const u8, length: usize, tag: *mut u8) {
        let mut written = 0;
        // SAFETY: the caller has set the key, and answers for message and tag.
        let done = unsafe {
            (self.ready || (self.init)(self.context, null(), 0, null()) == 1)
                && (self.update)(self.context, message, length) == 1
                && (self.finish)(self.context, tag, &mut written, 16) == 1
        };
        assert!(done && written == 16, "OpenSSL makes a tag");
        self.ready = false;
    }
}

/// OpenSSL under one key; its contexts stay until the program ends.
pub struct OpenSsl {
    cipher: *mut c_void,
    encrypt: EncryptUpdate,
    cmac: Cmac,
}

/// Makes a context of AES-128-ECB without padding.
fn make_cipher(library: &Library, key: &[u8; 16]) -> Result<*mut c_void, String> {
    // SAFETY: the types are those of OpenSSL 3's headers.
    unsafe {
        let new: New = library.function(c"EVP_CIPHER_CTX_new")?;
        let ecb: New = library.function(c"EVP_aes_128_ecb")?;
        let init: EncryptInit = library.function(c"EVP_EncryptInit_ex")?;
        let set_padding: SetPadding = library.function(c"EVP_CIPHER_CTX_set_padding")?;
        let context = new();
        let ready = init(context, ecb(), null_mut(), key.as_ptr(), null()) == 1;
        if ready && set_padding(context, 0) == 1 {
            return Ok(context);
        }
    }
    Err(format!("{} makes no AES-128-ECB", library.name))
}

impl OpenSsl {
    /// Loads the library and sets the key.
    pub fn load(key: &[u8; 16]) -> Result<Self, String> {
        let library = open()?;
        let mut cmac = Cmac::load()?;
        // SAFETY: the types are those of OpenSSL 3's headers.
        unsafe {
            cmac.set_key(key.as_ptr());
            Ok(OpenSsl {
                cipher: make_cipher(&library, key)?,
                encrypt: library.function(c"EVP_EncryptUpdate")?,
                cmac,
            })
        }
    }
}

impl Chains for OpenSsl {
    /// One call for each block.
    fn encrypt_chain(&mut self, block: &mut [u8; 16], count: u64) {
        let bytes = block.as_mut_ptr();
        let mut written = 0;
        for _ in 0..count {
            // SAFETY: the key is set, and without padding a block is encrypted in place.
            let answer = unsafe { (self.encrypt)(self.cipher, bytes, &mut written, bytes, 16) };
            assert_eq!((answer, written), (1, 16), "OpenSSL encrypts a block");
        }
    }

    /// Tag after tag.
    fn tag_chain(&mut self, message: &mut [u8], count: u64) {
        let (bytes, length) = (message.as_mut_ptr(), message.len());
        for _ in 0..count {
            // SAFETY: the key is set, and the message has room for a tag.
            unsafe { self.cmac.tag(bytes, length, bytes) };
        }
    }
}
