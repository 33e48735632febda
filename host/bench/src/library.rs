//! Libraries that are measured beside ours, opened while the program runs, so that it runs without them too.

use std::ffi::{c_char, c_int, c_void, CStr, CString};

extern "C" {
    fn dlopen(path: *const c_char, flags: c_int) -> *mut c_void;
    fn dlsym(library: *mut c_void, name: *const c_char) -> *mut c_void;
}

const NOW: c_int = 2;

pub struct Library {
    name: &'static str,
    handle: *mut c_void,
}

impl Library {
    /// target/peers/NAME.so, which peers/make builds; or why it is left out.
    pub fn open(name: &'static str, package: &str) -> Result<Library, String> {
        let path = testkit::host().join(format!("../target/peers/{name}.so"));
        let path = CString::new(path.to_str().expect("a path in UTF-8")).expect("no zero byte");
        // Safety: the libraries do nothing but fill a table when they are opened.
        let handle = unsafe { dlopen(path.as_ptr(), NOW) };
        if handle.is_null() {
            return Err(format!("{name} (Debian: {package}; host/bench/peers/make builds it)"));
        }
        Ok(Library { name, handle })
    }

    /// A function of the library.
    ///
    /// # Safety
    /// `F` is the type of a pointer to the function of that name.
    pub unsafe fn function<F: Copy>(&self, name: &CStr) -> F {
        let function = dlsym(self.handle, name.as_ptr());
        assert!(!function.is_null(), "{} has no {name:?}", self.name);
        assert_eq!(size_of::<F>(), size_of::<*mut c_void>());
        std::mem::transmute_copy(&function)
    }
}
