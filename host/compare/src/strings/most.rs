//! Strings with the most partitions and the most bytes, and with one more.

use super::probe::Probe;
use crate::run::{Outcome, Run};
use testkit::disk::{Shape, SHAPES};
use testkit::strings::{lengthened, many, numbered_guid, TEXT_MAX};

/// What a string has.
pub const PARTITIONS_128: &str = "128 partitions";
pub const PARTITIONS_129: &str = "129 partitions or more";
pub const BYTES_8192: &str = "8,192 bytes";
pub const BYTES_8193: &str = "8,193 bytes or more";
pub const ZEROS: &str = "thousands of leading zeros";

pub fn most(run: &mut Run) -> Outcome {
    for shape in SHAPES {
        partitions(run, shape)?;
        bytes(run, shape)?;
    }
    Ok(())
}

/// 127 to 131 partitions, with room for all and for 128 alone; with a name, a GUID or a start that is taken in the last one, and
/// with a last one out of form.
fn partitions(run: &mut Run, shape: Shape) -> Outcome {
    let enough = shape.least_blocks() + 140;
    let just = shape.least_blocks() + 127;
    for count in 127..=131 {
        let text = many(count, shape.block);
        let what = if count > 128 { PARTITIONS_129 } else { PARTITIONS_128 };
        for n in [enough, just, just - 1] {
            let probe = Probe::new(run, shape, n);
            probe.meeting(run, 1, &text, what)?;
        }
        let probe = Probe::new(run, shape, enough);
        let at = text.rfind(";name=").expect("partitions");
        let (before, uuid, size) = (&text[..at], numbered_guid(0xF00), shape.block);
        for last in [
            format!(";name=0,size={size},uuid={uuid}"),
            format!(";name=z,size={size},uuid={}", numbered_guid(1)),
            format!(";name=z,size={size},uuid={uuid},start={}", shape.first_usable * size),
            format!(";name=z,size={},uuid={uuid}", size + 1),
            format!(";name=z,size=0,uuid={uuid}"),
            format!(";name=z,size=0,uuid={uuid},type=swap,bootable;"),
            format!(";name=z,size={size},uuid={uuid},size={size}"),
            ";".into(),
            ";;".into(),
        ] {
            probe.build(run, 1, format!("{before}{last}"))?;
        }
    }
    Ok(())
}

/// 8,190 to 8,195 bytes by leading zeros, of few partitions and of 128, of a number with a suffix, by a semicolon, and of
/// nothing else.
fn bytes(run: &mut Run, shape: Shape) -> Outcome {
    let probe = Probe::new(run, shape, shape.least_blocks() + 140);
    let few = many(2, shape.block);
    let suffixed = few.replacen(&format!("size={}", shape.block), "size=4KiB", 2);
    let started = format!("{few},start={}", 64 * shape.block);
    for len in TEXT_MAX - 2..=TEXT_MAX + 3 {
        let what = if len > TEXT_MAX { BYTES_8193 } else { BYTES_8192 };
        for text in [&few, &suffixed, &started, &many(128, shape.block)] {
            probe.meeting(run, 1, lengthened(text, len), what)?;
            probe.build(run, 1, lengthened(text, len - 1) + ";")?;
        }
        for filler in [b'0', b';', b',', b'=', b'a', b' ', 0, 0xFF] {
            probe.demand(run, 1, vec![filler; len], 70)?;
            let mut text = few.clone().into_bytes();
            text.resize(len, filler);
            probe.build(run, 1, text)?;
        }
    }
    for zeros in [19, 20, 21, 39, 40, 41, 300, 7000] {
        let zeros = "0".repeat(zeros);
        let [one, other] = [1, 2].map(numbered_guid);
        for number in ["4096", "0", "4KiB", "0KiB", "18446744073709551615", "18446744073709551616", "1GiB"] {
            let text = |fields: &str| format!("uuid_disk={one};name=a,uuid={other},{fields}");
            probe.meeting(run, 1, text(&format!("size={zeros}{number}")), ZEROS)?;
            probe.build(run, 1, text(&format!("size=0,start={zeros}{number}")))?;
        }
    }
    Ok(())
}
