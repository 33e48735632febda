use crate::fenced::Fenced;

/// What differs.
pub type Outcome = Result<(), String>;

/// What an answer's number holds before the call.
const BEFORE: u64 = 0xA5A5_5A5A_C3C3_3C3C;

/// Lends copies of the buffers and numbers for answers to the library, before fences, and to the second implementation;
/// compares the answers and all that was lent.
pub fn both<const BUFFERS: usize, const NUMBERS: usize>(
    buffers: [Vec<u8>; BUFFERS],
    library: impl FnOnce([&mut [u8]; BUFFERS], [&mut u64; NUMBERS]) -> u32,
    second: impl FnOnce([&mut [u8]; BUFFERS], [&mut u64; NUMBERS]) -> u32,
) -> Outcome {
    let (mut our_numbers, mut their_numbers) = ([BEFORE; NUMBERS], [BEFORE; NUMBERS]);
    let mut ours = buffers.each_ref().map(|bytes| Fenced::holding(bytes));
    let our_answer = library(ours.each_mut().map(Fenced::bytes), our_numbers.each_mut());
    let mut theirs = buffers;
    let their_answer = second(theirs.each_mut().map(Vec::as_mut_slice), their_numbers.each_mut());
    if (our_answer, our_numbers) != (their_answer, their_numbers) {
        let (ours, theirs) = ((our_answer, our_numbers), (their_answer, their_numbers));
        return Err(format!("library answers {ours:?}, second {theirs:?}"));
    }
    for (place, (ours, theirs)) in ours.iter_mut().zip(&theirs).enumerate() {
        if ours.bytes() != theirs {
            let at = ours.bytes().iter().zip(theirs).position(|(a, b)| a != b).unwrap_or(0);
            let (a, b) = (ours.bytes()[at], theirs[at]);
            return Err(format!("byte {at} of buffer {place} is {a:02X} by library, {b:02X} by second"));
        }
        if !ours.start_is_whole() {
            return Err(format!("a byte before buffer {place} was written"));
        }
    }
    Ok(())
}

/// Units that the library is lent in place.
pub fn in_place(bytes: &[u8]) -> &[u16] {
    // Safety: any two bytes are a unit.
    let (before, units, after) = unsafe { bytes.align_to::<u16>() };
    assert!(before.is_empty() && after.is_empty(), "units in a page begin at an even address");
    units
}

pub fn units(bytes: &[u8]) -> Vec<u16> {
    bytes.chunks_exact(2).map(|unit| u16::from_ne_bytes([unit[0], unit[1]])).collect()
}
