//! The byte functions of crate `octets`, exported for measuring only by crate `bench_octets`.

mod c {
    extern "C" {
        pub fn usi_bench_load64(s: *const u8, s_len: usize, at: u64) -> u64;
        pub fn usi_bench_store64(s: *mut u8, s_len: usize, at: u64, v: u64) -> u32;
        pub fn usi_bench_is_zero(s: *const u8, s_len: usize) -> u32;
        pub fn usi_bench_same(a: *const u8, a_len: usize, b: *const u8, b_len: usize) -> u32;
        pub fn usi_bench_copy(dst: *mut u8, dst_len: usize, src: *const u8, src_len: usize) -> u32;
        pub fn usi_bench_fill(s: *mut u8, s_len: usize, v: u8) -> u32;
    }
}

// Safety of every call below: pointer and length come from one slice, and slices do not overlap.

pub fn load64(s: &[u8], at: u64) -> u64 {
    unsafe { c::usi_bench_load64(s.as_ptr(), s.len(), at) }
}

pub fn store64(s: &mut [u8], at: u64, v: u64) -> u32 {
    unsafe { c::usi_bench_store64(s.as_mut_ptr(), s.len(), at, v) }
}

pub fn is_zero(s: &[u8]) -> u32 {
    unsafe { c::usi_bench_is_zero(s.as_ptr(), s.len()) }
}

pub fn same(a: &[u8], b: &[u8]) -> u32 {
    unsafe { c::usi_bench_same(a.as_ptr(), a.len(), b.as_ptr(), b.len()) }
}

pub fn copy(dst: &mut [u8], src: &[u8]) -> u32 {
    unsafe { c::usi_bench_copy(dst.as_mut_ptr(), dst.len(), src.as_ptr(), src.len()) }
}

pub fn fill(s: &mut [u8], v: u8) -> u32 {
    unsafe { c::usi_bench_fill(s.as_mut_ptr(), s.len(), v) }
}
