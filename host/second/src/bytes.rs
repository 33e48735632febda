//! Total access to bytes: what lies past the end reads as nothing and is not written.

/// The bytes from `at` on, at most `len` of them.
pub fn part(bytes: &[u8], at: usize, len: usize) -> &[u8] {
    let start = at.min(bytes.len());
    let end = at.saturating_add(len).min(bytes.len());
    &bytes[start..end]
}

pub fn put(bytes: &mut [u8], at: usize, new: &[u8]) {
    for (to, from) in bytes.iter_mut().skip(at).zip(new) {
        *to = *from;
    }
}

/// Q6: the stored number.
pub fn number(little_endian: bool, stored: &[u8]) -> u64 {
    let enter = |value: u64, byte: &u8| value << 8 | u64::from(*byte);
    match little_endian {
        true => stored.iter().rev().fold(0, enter),
        false => stored.iter().fold(0, enter),
    }
}

/// Q6: the lowest `len` bytes of a number, as stored.
pub fn stored(little_endian: bool, number: u64, len: usize) -> Vec<u8> {
    let mut bytes: Vec<u8> = (0..len).map(|place| (number >> (8 * place)) as u8).collect();
    if !little_endian {
        bytes.reverse();
    }
    bytes
}

pub fn is_zero(bytes: &[u8]) -> bool {
    bytes.iter().all(|byte| *byte == 0)
}

#[cfg(test)]
mod tests {
    use super::*;

    #[test]
    fn parts_and_writes_end_with_the_buffer() {
        let mut bytes = [1, 2, 3, 4];
        assert_eq!(part(&bytes, 1, 2), [2, 3]);
        assert_eq!(part(&bytes, 3, 2), [4]);
        assert_eq!(part(&bytes, 9, usize::MAX), []);
        put(&mut bytes, 3, &[8, 9]);
        put(&mut bytes, 7, &[8, 9]);
        assert_eq!(bytes, [1, 2, 3, 8]);
    }

    #[test]
    fn numbers_are_stored_from_the_low_byte_on() {
        assert_eq!(stored(true, 0x0102_0304, 4), [4, 3, 2, 1]);
        assert_eq!(stored(false, 0x0102_0304, 3), [2, 3, 4]);
        assert_eq!(number(true, &[4, 3, 2, 1]), 0x0102_0304);
        assert_eq!(number(false, &[1, 2]), 0x0102);
        assert_eq!(number(true, &[0xFF; 8]), u64::MAX);
    }
}
