//! The flash map calls. A refusal leaves every buffer and every number answer alone.

mod c {
    extern "C" {
        pub fn usi_fmap_find(image: *const u8, image_len: usize, position: *mut u64) -> u32;
        pub fn usi_fmap_fault(image: *const u8, image_len: usize, position: u64, rule: *mut u64) -> u32;
        pub fn usi_fmap_area(
            image: *const u8,
            image_len: usize,
            k: u64,
            area: *mut u8,
            area_len: usize,
        ) -> u32;
        pub fn usi_fmap_named(
            image: *const u8,
            image_len: usize,
            name: *const u8,
            name_len: usize,
            k: *mut u64,
        ) -> u32;
        pub fn usi_fmap_carry(old: *const u8, old_len: usize, new: *mut u8, new_len: usize) -> u32;
    }
}

// Safety of every call below: each pointer and length come from one slice, each answer's pointer
// from one reference, and nothing behind a `&mut` is shared with another argument.

pub fn fmap_find(image: &[u8], position: &mut u64) -> u32 {
    unsafe { c::usi_fmap_find(image.as_ptr(), image.len(), position) }
}

pub fn fmap_fault(image: &[u8], position: u64, rule: &mut u64) -> u32 {
    unsafe { c::usi_fmap_fault(image.as_ptr(), image.len(), position, rule) }
}

pub fn fmap_area(image: &[u8], k: u64, area: &mut [u8]) -> u32 {
    unsafe { c::usi_fmap_area(image.as_ptr(), image.len(), k, area.as_mut_ptr(), area.len()) }
}

pub fn fmap_named(image: &[u8], name: &[u8], k: &mut u64) -> u32 {
    unsafe { c::usi_fmap_named(image.as_ptr(), image.len(), name.as_ptr(), name.len(), k) }
}

pub fn fmap_carry(old: &[u8], new: &mut [u8]) -> u32 {
    unsafe { c::usi_fmap_carry(old.as_ptr(), old.len(), new.as_mut_ptr(), new.len()) }
}
