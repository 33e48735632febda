//! Memory that ends where an inaccessible page begins: a read or write past the end of a lent buffer ends the program.

use std::ffi::{c_int, c_void};

extern "C" {
    fn mmap(
        at: *mut c_void,
        len: usize,
        access: c_int,
        flags: c_int,
        file: c_int,
        offset: i64,
    ) -> *mut c_void;
    fn mprotect(at: *mut c_void, len: usize, access: c_int) -> c_int;
    fn munmap(at: *mut c_void, len: usize) -> c_int;
}

const PAGE: usize = 4096;
const NO_ACCESS: c_int = 0;
const READ_WRITE: c_int = 3;
/// MAP_PRIVATE and MAP_ANONYMOUS of Linux.
const FRESH: c_int = 0x22;

/// A buffer before a fence. The bytes before it in its first page are zero.
pub struct Fenced {
    start: *mut u8,
    pages: usize,
    len: usize,
}

impl Fenced {
    pub fn holding(bytes: &[u8]) -> Fenced {
        let pages = bytes.len().div_ceil(PAGE) * PAGE;
        // Safety: fresh pages, of which the last one is closed; the bytes go to the end of the others.
        unsafe {
            let start = mmap(std::ptr::null_mut(), pages + PAGE, READ_WRITE, FRESH, -1, 0).cast::<u8>();
            assert!(start as isize != -1, "no memory");
            assert_eq!(mprotect(start.add(pages).cast(), PAGE, NO_ACCESS), 0, "no fence");
            let fenced = Fenced { start, pages, len: bytes.len() };
            start.add(pages - bytes.len()).copy_from_nonoverlapping(bytes.as_ptr(), bytes.len());
            fenced
        }
    }

    pub fn bytes(&mut self) -> &mut [u8] {
        // Safety: these bytes are accessible until the drop, and the borrow is exclusive.
        unsafe { std::slice::from_raw_parts_mut(self.start.add(self.pages - self.len), self.len) }
    }

    /// Whether the bytes before the buffer are still zero.
    pub fn start_is_whole(&self) -> bool {
        // Safety: as above, the part before the buffer.
        let before = unsafe { std::slice::from_raw_parts(self.start, self.pages - self.len) };
        before.iter().all(|byte| *byte == 0)
    }
}

impl Drop for Fenced {
    fn drop(&mut self) {
        // Safety: the pages of `holding`.
        unsafe { munmap(self.start.cast(), self.pages + PAGE) };
    }
}

#[cfg(test)]
mod tests {
    use super::Fenced;
    use std::env;
    use std::os::unix::process::ExitStatusExt;
    use std::process::Command;

    const SIGSEGV: i32 = 11;

    #[test]
    fn a_byte_past_the_end_cannot_be_read() {
        const CHILD: &str = "READ_PAST_THE_END";
        let mut fenced = Fenced::holding(&[1, 2, 3]);
        assert_eq!(fenced.bytes(), [1, 2, 3]);
        let end = fenced.bytes().as_ptr_range().end;
        if env::var_os(CHILD).is_some() {
            // Safety: none; the program ends here.
            println!("{}", unsafe { end.read_volatile() });
            return;
        }
        let program = env::current_exe().expect("this test");
        let name = "fenced::tests::a_byte_past_the_end_cannot_be_read";
        let child = Command::new(program).args(["--exact", name]).env(CHILD, "1").output().expect("a run");
        assert_eq!(child.status.signal(), Some(SIGSEGV));
    }

    #[test]
    fn a_write_before_the_start_shows() {
        let mut fenced = Fenced::holding(&[1, 2, 3]);
        assert!(fenced.start_is_whole());
        let start = fenced.bytes().as_mut_ptr();
        // Safety: the byte before is in the same page, and no one else's.
        unsafe { start.sub(1).write(1) };
        assert!(!fenced.start_is_whole());
    }
}
