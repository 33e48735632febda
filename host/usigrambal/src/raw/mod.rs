//! The calls as the C interface has them, on slices of any length: the answer is 0 or the number
//! of the refusal (the CRC for `crc32`). A wrong length is for the library to refuse (rule R4).

mod fmap;
mod fmd;
mod gpt;

pub use fmap::*;
pub use fmd::*;
pub use gpt::*;

mod c {
    extern "C" {
        pub fn usi_crc32(data: *const u8, data_len: usize) -> u32;
        pub fn usi_guid_read(text: *const u8, text_len: usize, guid: *mut u8, guid_len: usize) -> u32;
        pub fn usi_type_read(text: *const u8, text_len: usize, guid: *mut u8, guid_len: usize) -> u32;
        pub fn usi_guid_write(guid: *const u8, guid_len: usize, text: *mut u8, text_len: usize) -> u32;
    }
}

// Safety of every call below: each pointer and length come from one slice, and a `&mut` slice
// shares no byte with another argument, which is all that the C interface asks of its caller.

pub fn crc32(data: &[u8]) -> u32 {
    unsafe { c::usi_crc32(data.as_ptr(), data.len()) }
}

pub fn guid_read(text: &[u8], guid: &mut [u8]) -> u32 {
    unsafe { c::usi_guid_read(text.as_ptr(), text.len(), guid.as_mut_ptr(), guid.len()) }
}

pub fn type_read(text: &[u8], guid: &mut [u8]) -> u32 {
    unsafe { c::usi_type_read(text.as_ptr(), text.len(), guid.as_mut_ptr(), guid.len()) }
}

pub fn guid_write(guid: &[u8], text: &mut [u8]) -> u32 {
    unsafe { c::usi_guid_write(guid.as_ptr(), guid.len(), text.as_mut_ptr(), text.len()) }
}
