//! CRC-32 by crc32fast.

/// # Safety
/// `data` points to `len` bytes.
#[no_mangle]
pub unsafe extern "C" fn peer_crc32(data: *const u8, len: usize) -> u32 {
    crc32fast::hash(std::slice::from_raw_parts(data, len))
}
