//! The calls on a layout text. A refusal leaves every buffer and every number answer alone.

/// How many records a lent section list has, and their length; each is an area of the map (rule M2).
pub const RECORDS: usize = 128;
pub const RECORD_LEN: usize = 42;

mod c {
    extern "C" {
        pub fn usi_fmd_read(
            text: *const u8,
            text_len: usize,
            name: *mut u8,
            name_len: usize,
            size: *mut u64,
            address: *mut u64,
            count: *mut u64,
        ) -> u32;
        pub fn usi_fmd_records(
            text: *const u8,
            text_len: usize,
            records: *mut u8,
            records_len: usize,
            count: *mut u64,
        ) -> u32;
        pub fn usi_fmd_write(text: *const u8, text_len: usize, image: *mut u8, image_len: usize) -> u32;
    }
}

// Safety of every call below: each pointer and length come from one slice, each answer's pointer
// from one reference, and nothing behind a `&mut` is shared with another argument.

pub fn fmd_read(text: &[u8], name: &mut [u8], size: &mut u64, address: &mut u64, count: &mut u64) -> u32 {
    let (name, name_len) = (name.as_mut_ptr(), name.len());
    unsafe { c::usi_fmd_read(text.as_ptr(), text.len(), name, name_len, size, address, count) }
}

pub fn fmd_records(text: &[u8], records: &mut [u8], count: &mut u64) -> u32 {
    let (records, records_len) = (records.as_mut_ptr(), records.len());
    unsafe { c::usi_fmd_records(text.as_ptr(), text.len(), records, records_len, count) }
}

pub fn fmd_write(text: &[u8], image: &mut [u8]) -> u32 {
    unsafe { c::usi_fmd_write(text.as_ptr(), text.len(), image.as_mut_ptr(), image.len()) }
}
