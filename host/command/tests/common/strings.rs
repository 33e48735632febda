//! Layout strings for the tests of `gpt build`.

pub const DISK: &str = "6D8F4C1E-0B7A-4F35-9A55-1C2D3E4F5A6B";
pub const ZEROS: &str = "00000000-0000-0000-0000-000000000000";

/// The unique GUID of a partition, by its number.
pub fn unique(number: usize) -> String {
    format!("11111111-2222-4333-8444-{number:012}")
}

/// A string of partitions, each with a unique GUID of its own behind its fields.
pub fn string(parts: &[&str]) -> String {
    let part = |(number, fields): (usize, &&str)| format!(";{fields},uuid={}", unique(number));
    format!("uuid_disk={DISK}{}", (1..).zip(parts).map(part).collect::<String>())
}
