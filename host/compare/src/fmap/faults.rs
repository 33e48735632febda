//! The first rule that a map breaks: two rules broken at once, and positions without a map.

use super::call::fault;
use super::images::{base, get32, image_of, in_area, set32};
use crate::run::{Outcome, Run};
use testkit::flash::map_len;

/// One rule broken, of a map with the areas FMAP, A, B and C in an image of that length.
type Break = fn(&mut Vec<u8>, usize);

const BREAKS: &[Break] = &[
    |_, _| {},
    |m, _| m[3] ^= 1,
    |m, _| m[8] = 2,
    |m, _| m[9] = 2,
    |m, length| set32(m, 18, length as u64 + 1),
    |m, _| m[54] = 0,
    |m, _| m[54] = 129,
    |m, _| m[54] = 128,
    |m, _| m[53] = b'x',
    |m, _| set32(m, in_area(2, 4), 0),
    |m, length| set32(m, in_area(3, 4), length as u64),
    |m, _| m[in_area(1, 8)..in_area(1, 40)].fill(b'N'),
    |m, _| set32(m, in_area(0, 4), map_len(4) as u64 - 1),
    |m, _| m[in_area(0, 0)] ^= 0x80,
    |m, _| m.copy_within(in_area(2, 8)..in_area(2, 40), in_area(3, 8)),
    |m, _| {
        let (a, b) = (get32(m, in_area(1, 0)), get32(m, in_area(2, 0)));
        set32(m, in_area(1, 4), b + 1 - a);
    },
];

/// Each two rules broken together; asked for at the map, beside it, and at every position behind it.
pub fn each_two(run: &mut Run) -> Outcome {
    for one in BREAKS {
        for other in BREAKS {
            let map = base(&mut run.random);
            let mut image = image_of(&map, &mut run.random);
            let mut bytes = map.to_bytes();
            one(&mut bytes, image.len());
            other(&mut bytes, image.len());
            image[map.position..map.position + bytes.len()].copy_from_slice(&bytes);
            let at = map.position as u64;
            for position in [at, at - 1, at + 1] {
                fault(run, &image, position)?;
            }
        }
    }
    Ok(())
}

/// A map cut off by the image's end, with another rule broken or none; and numbers that are no position of the image.
pub fn ends(run: &mut Run) -> Outcome {
    let map = base(&mut run.random);
    let whole = image_of(&map, &mut run.random);
    for change in BREAKS {
        let mut bytes = map.to_bytes();
        change(&mut bytes, whole.len());
        for kept in 0..=map.len() {
            let mut image = vec![0xFF; 300 + kept];
            image[300..].copy_from_slice(&bytes[..kept]);
            fault(run, &image, 300)?;
        }
    }
    let len = whole.len() as u64;
    let far = [1 << 24, (1 << 32) - 2, (1 << 32) - 1, 1 << 32, (1 << 32) + map.position as u64, u64::MAX];
    (len - 60..len + 10).chain(far).try_for_each(|position| fault(run, &whole, position))
}
