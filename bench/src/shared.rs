//! Shared libraries, loaded while the program runs.

use std::ffi::{c_char, c_int, c_void, CStr, CString};
use std::mem::transmute_copy;

/// A shared library, loaded as long as the program runs.
pub struct Shared(*mut c_void);

impl Shared {
    pub fn load(path: &str) -> Result<Shared, String> {
        let path = CString::new(path).map_err(|error| error.to_string())?;
        // SAFETY: the path is a string of C.
        let handle = unsafe { dlopen(path.as_ptr(), RTLD_NOW | RTLD_LOCAL) };
        found(handle).map(Shared)
    }

    /// The function of this name.
    ///
    /// # Safety
    ///
    /// `F` is a pointer to a function, of the type that the library has it with.
    pub unsafe fn function<F>(&self, name: &CStr) -> Result<F, String> {
        // SAFETY: the library is loaded, and the name is a string of C.
        let address = found(unsafe { dlsym(self.0, name.as_ptr()) })?;
        // SAFETY: an address of a function, to be called by its type.
        Ok(unsafe { transmute_copy(&address) })
    }
}

/// What the loader found, or why it is null.
fn found(pointer: *mut c_void) -> Result<*mut c_void, String> {
    if !pointer.is_null() {
        return Ok(pointer);
    }
    // SAFETY: behind a failure it is a string of C, until the loader is called again.
    let reason = unsafe { CStr::from_ptr(dlerror()) };
    Err(reason.to_string_lossy().into_owned())
}

const RTLD_LOCAL: c_int = 0;
const RTLD_NOW: c_int = 2;

unsafe extern "C" {
    fn dlopen(path: *const c_char, flags: c_int) -> *mut c_void;
    fn dlsym(handle: *mut c_void, name: *const c_char) -> *mut c_void;
    fn dlerror() -> *const c_char;
}
