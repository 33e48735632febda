//! Safe Rust over the C interface of Usigrambal. `raw` has the calls with their numbers; the rest
//! gives them Rust's types and errors.

pub mod attributes;
mod block;
mod disk;
pub mod flash;
mod guid;
pub mod layout;
mod name;
pub mod raw;
mod refusal;
mod refused;
mod rule;
mod writing;

pub use attributes::AttributeRule;
pub use block::BlockSize;
pub use disk::{Disk, Free, Partition, Run, SharedName, State};
pub use guid::Guid;
pub use name::Name;
pub use refusal::Refusal;
pub use refused::{Refused, IMAGE_MAX, STRING_MAX, TEXT_MAX};
pub use writing::{NewPartition, Placed, ALIGNMENTS};

/// The CRC-32 of UEFI and zlib (rule D3).
pub fn crc32(data: &[u8]) -> u32 {
    raw::crc32(data)
}

#[cfg(test)]
mod tests {
    #[test]
    fn crc32_of_the_catalogue_check_string() {
        assert_eq!(super::crc32(b"123456789"), 0xCBF4_3926);
        assert_eq!(super::crc32(b""), 0);
    }
}
