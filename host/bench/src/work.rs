//! Makes the timed calls of a row. `black_box` keeps the compiler from knowing the bytes, and so from
//! moving a call out of the timed loop.

use std::hint::black_box;

/// A cache line; all buffers begin with one.
const ALIGNMENT: usize = 64;

/// A call on bytes that it reads.
pub fn of<A>(bytes: &'static [u8], call: impl Fn(&[u8]) -> A) -> impl FnMut() -> A {
    move || call(black_box(bytes))
}

pub fn of_two<A>(a: &'static [u8], b: &'static [u8], call: impl Fn(&[u8], &[u8]) -> A) -> impl FnMut() -> A {
    move || call(black_box(a), black_box(b))
}

/// A call on a buffer of its own that it writes.
pub fn onto<A>(size: usize, call: impl Fn(&mut [u8]) -> A) -> impl FnMut() -> A {
    let buffer = aligned(size);
    move || call(black_box(&mut *buffer))
}

/// Loads every eight bytes, one call for each.
pub fn loads(load: impl Fn(&[u8], u64) -> u64) -> impl Fn(&[u8]) -> u64 {
    move |s| places(s).fold(0, |sum, at| sum ^ load(s, at))
}

/// Stores every eight bytes, one call for each.
pub fn stores(store: impl Fn(&mut [u8], u64, u64) -> u32) -> impl Fn(&mut [u8]) -> u32 {
    move |s| places(s).fold(0, |sum, at| sum ^ store(s, at, at))
}

fn places(s: &[u8]) -> impl Iterator<Item = u64> {
    (0..s.len() as u64 / 8).map(|index| 8 * index)
}

/// The same varied bytes for the same size.
pub fn bytes(size: usize) -> &'static [u8] {
    let buffer = aligned(size);
    let mut state = 1_u32;
    for byte in buffer.iter_mut() {
        state = state.wrapping_mul(1_664_525).wrapping_add(1_013_904_223);
        *byte = (state >> 24) as u8;
    }
    buffer
}

pub fn zeros(size: usize) -> &'static [u8] {
    aligned(size)
}

/// A pattern from the start on, again and again.
pub fn repeated(size: usize, pattern: &[u8]) -> &'static [u8] {
    let buffer = aligned(size);
    for (to, from) in buffer.iter_mut().zip(pattern.iter().cycle()) {
        *to = *from;
    }
    buffer
}

/// Zero bytes, never freed: the rows live as long as the program. Written once, so that their
/// pages are there before the timing.
fn aligned(size: usize) -> &'static mut [u8] {
    let store = vec![0xAA_u8; size + ALIGNMENT].leak();
    let start = store.as_ptr().align_offset(ALIGNMENT);
    let buffer = &mut store[start..start + size];
    buffer.fill(0);
    buffer
}
