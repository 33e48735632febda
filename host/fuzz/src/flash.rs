//! A flash image by a script: its length, what fills it, and maps and bytes put into it.

use crate::disk::{encoded_runs, put};
use crate::input::{number, Input};
use testkit::flash::{Area, Map};

/// Longer images would take the fuzzer's time.
const LONGEST: u64 = 1 << 17;

const END: u8 = 0xFF;
const PUT: u8 = 0;

/// Reads to the step that ends the script, or to the end of the input.
pub fn image(input: &mut Input) -> Vec<u8> {
    let len = input.number(98) % (LONGEST + 1);
    let mut image = vec![input.byte(); len as usize];
    while !input.is_empty() {
        let step = input.byte();
        match step % 6 {
            _ if step == END => break,
            PUT => {
                let (at, len) = (input.number(len) as usize, usize::from(input.byte()));
                put(&mut image, at, input.bytes(len));
            }
            1 | 2 => map(&mut image, input),
            3 => {
                let (at, bit) = (input.number(len) as usize, input.byte() % 8);
                if let Some(byte) = image.get_mut(at) {
                    *byte ^= 1 << bit;
                }
            }
            4 => put(&mut image, input.number(len) as usize, b"__FMAP__"),
            _ => pattern(&mut image, input.byte()),
        }
    }
    image
}

/// Another byte in each place near by, so that a byte carried from or to a wrong place shows.
fn pattern(image: &mut [u8], seed: u8) {
    image.iter_mut().enumerate().for_each(|(place, byte)| *byte = seed ^ (place % 251) as u8);
}

/// A map of a few areas, good but for its numbers.
fn map(image: &mut [u8], input: &mut Input) {
    let position = input.number(image.len() as u64) as usize;
    let size = input.number(0) as u32;
    let count = input.byte() % 12;
    let areas = (0..count).map(|_| area(image.len() as u64, input)).collect();
    let size = if size == 0 { image.len() as u32 } else { size };
    Map { major: 1, minor: 1, base: 0, size, name: b"FLASH".to_vec(), areas, position }.write(image);
}

fn area(len: u64, input: &mut Input) -> Area {
    const NAMES: [&[u8]; 8] = [b"FMAP", b"A", b"B", b"C", b"RW_CAL", b"RO_VPD", b"AB", b""];
    let (offset, size, name) = (input.number(len) as u32, input.number(len) as u32, input.byte());
    let flags = u16::from(name >> 4);
    Area { offset, size, name: NAMES[usize::from(name & 7)].to_vec(), flags }
}

/// The script that makes this image, byte for byte, and ends.
pub fn encoded(image: &[u8]) -> Vec<u8> {
    let fill = image.last().copied().unwrap_or(0);
    let runs = encoded_runs(image, fill, |at, len| [vec![PUT], number(at), vec![len]].concat());
    [number(image.len() as u64), vec![fill], runs, vec![END]].concat()
}
