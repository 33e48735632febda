//! Names, drawn so that the same one, nearly the same one and the empty one are met often.

use super::call::NAME_UNITS;
use super::disk::{Disk, Side};
use super::sample;
use testkit::random::Random;

pub const EMPTY: [u16; NAME_UNITS] = [0; NAME_UNITS];

/// A name that is not refused by itself; some of its units have a zero byte.
pub fn good(random: &mut Random) -> Vec<u16> {
    let length = random.pick(&[0, 1, 5, 35, NAME_UNITS]);
    of_length(length, random)
}

/// One that is not empty.
pub fn filled(random: &mut Random) -> Vec<u16> {
    let length = random.pick(&[1, 2, 5, 35, NAME_UNITS]);
    of_length(length, random)
}

/// One unit is any, so that hardly two are the same.
pub fn of_length(length: usize, random: &mut Random) -> Vec<u16> {
    let mut name = EMPTY.to_vec();
    for unit in &mut name[..length] {
        *unit = random.pick(&[0x41, 0x0100, 0xFF00, 0xD83D, 0xFFFF, 1]);
    }
    if length > 0 {
        name[random.below(length)] = random.number() as u16 | 1;
    }
    name
}

/// A nonzero unit after a zero one, the last unit among them.
pub fn bad(random: &mut Random) -> Vec<u16> {
    let zero = random.below(NAME_UNITS - 1);
    let after = match random.below(2) {
        0 => NAME_UNITS - 1,
        _ => zero + 1 + random.below(NAME_UNITS - 1 - zero),
    };
    let mut name = EMPTY.to_vec();
    name[..zero].fill(0x42);
    name[after] = random.pick(&[1, 0x0100, 0x8000, 0x43]);
    name
}

/// Any, or one that an entry has, or has nearly: a used entry, at times a stale one.
pub fn any(disk: &mut Disk, random: &mut Random) -> Vec<u16> {
    let carriers = sample::partitions(disk, random);
    let carried = |disk: &mut Disk, random: &mut Random| {
        let (index, ..) = random.pick(&carriers);
        disk.name(Side::Head, index)
    };
    match random.below(10) {
        0 => bad(random),
        1 => random.bytes(NAME_UNITS).into_iter().map(u16::from).collect(),
        2..=3 if !carriers.is_empty() => carried(disk, random),
        4..=5 if !carriers.is_empty() => near(&carried(disk, random), random),
        _ => good(random),
    }
}

/// The name but for one bit, one unit at its end, the case of its letters, or what stands behind a zero unit.
fn near(name: &[u16], random: &mut Random) -> Vec<u16> {
    let mut name = name.to_vec();
    match random.below(6) {
        0 => name[random.below(NAME_UNITS)] ^= 1 << random.below(16),
        1 => name[NAME_UNITS - 1] ^= 1 << random.below(16),
        2 => name = text(&name),
        3 => name = longer(&name),
        4 => name = shorter(&name),
        _ => name = in_other_case(&name),
    }
    name
}

/// Where the first zero unit stands.
fn end(name: &[u16]) -> usize {
    name.iter().position(|unit| *unit == 0).unwrap_or(name.len())
}

/// Up to its first zero unit.
fn text(name: &[u16]) -> Vec<u16> {
    let (mut text, end) = (name.to_vec(), end(name));
    text[end..].fill(0);
    text
}

/// One more unit at its end, if there is room.
pub fn longer(name: &[u16]) -> Vec<u16> {
    let (mut longer, end) = (name.to_vec(), end(name));
    longer.iter_mut().skip(end).take(1).for_each(|unit| *unit = 0x7A);
    longer
}

/// Without its last unit.
pub fn shorter(name: &[u16]) -> Vec<u16> {
    let (mut shorter, end) = (name.to_vec(), end(name));
    shorter[end.saturating_sub(1)..].fill(0);
    shorter
}

pub fn in_other_case(name: &[u16]) -> Vec<u16> {
    let is_letter = |unit: u16| u8::try_from(unit).is_ok_and(|byte| byte.is_ascii_alphabetic());
    name.iter().map(|unit| if is_letter(*unit) { unit ^ 0x20 } else { *unit }).collect()
}
