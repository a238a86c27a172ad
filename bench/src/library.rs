//! Libraries of the system, opened while the program runs.

use std::ffi::{c_char, c_int, c_void, CStr, CString};

extern "C" {
    fn dlopen(name: *const c_char, flags: c_int) -> *mut c_void;
    fn dlsym(library: *mut c_void, name: *const c_char) -> *mut c_void;
}

/// All symbols are resolved when the library is opened.
const RTLD_NOW: c_int = 2;

/// An open library; it stays open until the program ends.
pub struct Library {
    handle: *mut c_void,
    pub name: String,
}

impl Library {
    /// Opens the first of these names that is there.
    pub fn open(names: &[&str]) -> Result<Self, String> {
        for name in names {
            let text = CString::new(*name).expect("a name without zero bytes");
            // SAFETY: the name ends with a zero byte.
            let handle = unsafe { dlopen(text.as_ptr(), RTLD_NOW) };
            if !handle.is_null() {
                let name = name.to_string();
                return Ok(Library { handle, name });
            }
        }
        Err(format!("no {} on this machine", names.join(" or ")))
    }

    /// Finds a function. The caller answers for its type.
    pub unsafe fn function<F: Copy>(&self, name: &CStr) -> Result<F, String> {
        assert_eq!(size_of::<F>(), size_of::<*mut c_void>());
        // SAFETY: the library is open and the name ends with a zero byte.
        let address = unsafe { dlsym(self.handle, name.as_ptr()) };
        if address.is_null() {
            return Err(format!("{} has no {}", self.name, name.to_string_lossy()));
        }
        // SAFETY: the address has the size of F, and the caller answers for the rest.
        Ok(unsafe { std::mem::transmute_copy(&address) })
    }
}
