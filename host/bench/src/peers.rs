//! What ours is measured beside. Each is a call of its own, never inlined, on pointers and lengths and
//! with guards, as ours is, so that the work alone differs.

use crate::library::Library;
use std::ffi::c_void;

extern "C" {
    fn memmem(s: *const c_void, len: usize, part: *const c_void, part_len: usize) -> *const c_void;
}

/// A program of that name is there; or what is missing.
pub fn program(name: &str, package: &str) -> Result<(), String> {
    let folders = std::env::var_os("PATH").unwrap_or_default();
    let there = std::env::split_paths(&folders).any(|folder| folder.join(name).is_file());
    there.then_some(()).ok_or_else(|| format!("{name} (Debian: {package})"))
}

type Crc32 = extern "C" fn(*const u8, usize) -> u32;

/// The CRC-32 of a library.
pub fn crc32(name: &'static str, package: &str) -> Result<impl Fn(&[u8]) -> u32 + Copy, String> {
    let library = Library::open(name, package)?;
    // Safety: each library of a CRC-32 has this function, and pointer and length come from one slice.
    let crc32: Crc32 = unsafe { library.function(c"peer_crc32") };
    Ok(move |data: &[u8]| crc32(data.as_ptr(), data.len()))
}

#[inline(never)]
pub fn load64(s: &[u8], at: u64) -> u64 {
    match eight_at(s.len(), at) {
        Some(at) => u64::from_le_bytes(s[at..at + 8].try_into().unwrap()),
        None => 0,
    }
}

#[inline(never)]
pub fn store64(s: &mut [u8], at: u64, v: u64) -> u32 {
    match eight_at(s.len(), at) {
        Some(at) => {
            s[at..at + 8].copy_from_slice(&v.to_le_bytes());
            0
        }
        None => 1,
    }
}

/// `at`, if eight bytes from there on lie in `length`.
fn eight_at(length: usize, at: u64) -> Option<usize> {
    let at = usize::try_from(at).ok()?;
    (length >= 8 && at <= length - 8).then_some(at)
}

#[inline(never)]
pub fn byte_is_zero(s: &[u8]) -> u32 {
    s.iter().all(|byte| alone(byte) == 0).into()
}

#[inline(never)]
pub fn byte_same(a: &[u8], b: &[u8]) -> u32 {
    (a.len() == b.len() && a.iter().zip(b).all(|(x, y)| alone(x) == alone(y))).into()
}

/// A load of one byte that the compiler joins with no other.
fn alone(byte: &u8) -> u8 {
    unsafe { std::ptr::read_volatile(byte) }
}

/// memcmp, by which slices are compared.
#[inline(never)]
pub fn memcmp_same(a: &[u8], b: &[u8]) -> u32 {
    (a == b).into()
}

#[inline(never)]
pub fn memcpy_copy(dst: &mut [u8], src: &[u8]) -> u32 {
    if dst.len() != src.len() {
        return 1;
    }
    dst.copy_from_slice(src);
    0
}

#[inline(never)]
pub fn memset_fill(s: &mut [u8], v: u8) -> u32 {
    s.fill(v);
    0
}

/// The C library's search for the eight signature bytes; where they stand.
pub fn memmem_signature(image: &[u8]) -> Option<usize> {
    let signature = b"__FMAP__";
    let found =
        unsafe { memmem(image.as_ptr().cast(), image.len(), signature.as_ptr().cast(), signature.len()) };
    (!found.is_null()).then(|| found as usize - image.as_ptr() as usize)
}
