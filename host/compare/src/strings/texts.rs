//! Drawn layout strings, and strings changed from them.

use super::probe::Probe;
use crate::run::{Outcome, Run};
use testkit::disk::{Shape, SHAPES};
use testkit::strings::{changed_bytes, changed_fields, changed_numbers, numbered_guid, LayoutString, Wanted};

const DRAWN: usize = 1000;
const CHANGED: usize = 6000;

/// The blocks of a disk, often at or near a multiple of 2,048.
fn blocks(run: &mut Run, shape: Shape) -> u64 {
    let random = &mut run.random;
    match random.below(4) {
        0 => 2048 * random.pick(&[1, 2]) + shape.first_usable - random.pick(&[0, 1, 2]),
        1 => (1 << 32) - random.number_below(40),
        _ => shape.least_blocks() + random.number_below(900),
    }
}

fn wanted(run: &mut Run, partitions: usize) -> Wanted {
    let shape = run.random.pick(&SHAPES);
    Wanted { shape, n: blocks(run, shape), alignment: run.random.pick(&[1, 1, 8, 2048]), partitions }
}

/// Strings in form, whose answer is known from where their partitions stand.
pub fn drawn(run: &mut Run) -> Outcome {
    for k in 0..DRAWN {
        let partitions = 1 + run.random.below(if k % 25 == 0 { 60 } else { 8 });
        let wanted = wanted(run, partitions);
        let string = LayoutString::random(wanted, &mut run.random);
        let text = string.text(&mut run.random);
        let probe = Probe::new(run, wanted.shape, wanted.n);
        let number = string.places(wanted).err().unwrap_or(0);
        let number = if text.len() > testkit::strings::TEXT_MAX { 70 } else { number };
        probe.demand(run, wanted.alignment, text, number)?;
    }
    Ok(())
}

/// Of each string every beginning.
pub fn cut(run: &mut Run) -> Outcome {
    for (shape, partitions) in SHAPES.into_iter().zip([3, 4]) {
        let probe = Probe::new(run, shape, 3000);
        let wanted = Wanted { shape, n: 3000, alignment: 8, partitions };
        for text in [LayoutString::random(wanted, &mut run.random).text(&mut run.random), whole(shape)] {
            for end in 0..=text.len() {
                probe.build(run, 8, &text.as_bytes()[..end])?;
            }
        }
    }
    Ok(())
}

/// A string with every field.
fn whole(shape: Shape) -> String {
    let [disk, one, other] = [1, 2, 3].map(numbered_guid);
    let size = shape.block;
    let first = format!("name=a=b,size={size},uuid={one},start={},type=linux,bootable", 100 * size);
    format!("uuid_disk={disk};{first};bootable,type={one},uuid={other},name=c,size=0;")
}

/// Every byte put in before and behind every sign, and in its place; at each block size every other one.
pub fn each_byte(run: &mut Run) -> Outcome {
    for (k, shape) in SHAPES.into_iter().enumerate() {
        let probe = Probe::new(run, shape, 300);
        let text = whole(shape).into_bytes();
        let signs = (0..text.len()).filter(|at| b",;=".contains(&text[*at]));
        for (place, at) in signs.enumerate() {
            for byte in (0..=u8::MAX).skip((place + k) % 2).step_by(2) {
                for (from, to) in [(at, at), (at + 1, at + 1), (at, at + 1)] {
                    probe.build(run, 1, [&text[..from], &[byte], &text[to..]].concat())?;
                }
            }
        }
    }
    Ok(())
}

/// Strings with fields, numbers or bytes changed.
pub fn changed(run: &mut Run) -> Outcome {
    for k in 0..CHANGED {
        let partitions = 1 + run.random.below(5);
        let wanted = wanted(run, partitions);
        let string = LayoutString::random(wanted, &mut run.random);
        let random = &mut run.random;
        let text = match k % 3 {
            0 => changed_fields(&string, random),
            1 => changed_numbers(&string, wanted.shape.block, random),
            _ => {
                let text = string.text(random);
                changed_bytes(text.as_bytes(), random)
            }
        };
        let probe = Probe::new(run, wanted.shape, wanted.n);
        probe.build(run, wanted.alignment, text)?;
    }
    Ok(())
}
