//! All good maps of an image: a search finds the lowest one alone.

use crate::paths::shown;
use std::path::Path;
use usigrambal::flash;

const SIGNATURE_LEN: usize = 8;
/// What erased flash holds; no byte of a signature.
const ERASED: u8 = 0xFF;
/// How many further maps are looked for.
const LOOKED_FOR: usize = 16;

/// The positions of the good maps behind the first one, in order; the first of them if they are many.
///
/// Whether a map is good depends on its own bytes and the image's length. So in a copy all bytes up to the end of a map's
/// signature can be blanked, and the search finds the next good map. None begins within that signature: the byte behind
/// it is the version, 1, and no byte of a signature.
pub fn further(image: &[u8], first: u64) -> Vec<u64> {
    let mut copy = image.to_vec();
    let mut found = vec![first];
    while found.len() <= LOOKED_FOR {
        let last = found[found.len() - 1] as usize;
        copy[..last + SIGNATURE_LEN].fill(ERASED);
        match flash::find(&copy) {
            Ok(next) => found.push(next),
            Err(_) => break,
        }
    }
    found.split_off(1)
}

/// Overwrites the signature of each good map in front of a position, so that a search finds none there; where they stood.
pub fn retire_before(image: &mut [u8], position: u64) -> Vec<u64> {
    let mut retired = Vec::new();
    while let Some(found) = flash::find(image).ok().filter(|found| *found < position) {
        image[found as usize..][..SIGNATURE_LEN].fill(ERASED);
        retired.push(found);
    }
    retired
}

/// A warning where an image has more than one good map.
pub fn several(path: &Path, image: &[u8], first: u64) -> Option<String> {
    let further = further(image, first);
    let count = 1 + further.len();
    let more = if further.len() == LOOKED_FOR { " or more" } else { "" };
    let others = if further.len() == 1 { "another stands" } else { "others stand" };
    let places: Vec<String> = further.iter().map(|position| format!("{position:#010x}")).collect();
    let path = shown(path);
    (!places.is_empty()).then(|| {
        let places = places.join(", ");
        format!(
            "{path} has {count}{more} good maps: the lowest, at {first:#010x}, is used; {others} at {places}"
        )
    })
}

#[cfg(test)]
mod tests {
    use super::*;
    use usigrambal::layout::write_map;

    /// Maps at these places.
    fn image(places: &[usize]) -> Vec<u8> {
        let mut image = vec![0; 4096];
        places
            .iter()
            .for_each(|at| write_map(format!("I 4K {{ FMAP@{at} 98 }}"), &mut image).expect("a map"));
        image
    }

    #[test]
    fn all_maps_are_found() {
        assert_eq!(further(&image(&[7]), 7), []);
        assert_eq!(further(&image(&[7, 105, 4096 - 98]), 7), [105, 4096 - 98]);
        let mut spoiled = image(&[7, 300, 900]);
        spoiled[300 + 8] = 2;
        assert_eq!(further(&spoiled, 7), [900]);
        let many: Vec<usize> = (0..40).map(|k| 100 * k).collect();
        assert_eq!(further(&image(&many), 0), (1..=16).map(|k| 100 * k).collect::<Vec<u64>>());
    }

    #[test]
    fn those_in_front_are_retired() {
        let mut image = image(&[7, 300, 900, 2000]);
        let before = image.clone();
        assert_eq!(retire_before(&mut image, 7), []);
        assert_eq!(image, before);
        assert_eq!(retire_before(&mut image, 900), [7, 300]);
        let changed: Vec<usize> = (0..image.len()).filter(|at| image[*at] != before[*at]).collect();
        assert_eq!(changed, (7..15).chain(300..308).collect::<Vec<_>>());
        assert_eq!(flash::find(&image), Ok(900));
    }
}
