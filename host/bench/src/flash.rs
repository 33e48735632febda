//! The rows of the flash map calls.

use crate::peers::memmem_signature;
use crate::table::{Label, Table};
use crate::timed::calls;
use crate::work::{self, of};
use std::hint::black_box;
use testkit::flash::{map_len, Area, Map, PRESERVE};
use usigrambal::raw;

const MIB: usize = 1 << 20;
const LARGEST: usize = 16 * MIB;
/// Areas of 1 MiB, as many as the largest image has besides its map.
const AREAS: usize = 15;
const FIND_LEAST: f64 = 0.5;
const FULL_MOST: f64 = 20.0;
const CARRY_LEAST: f64 = 0.8;
/// Twice the bytes take twice the time; the rest is for the clock and the caches.
const DOUBLE_MOST: f64 = 2.2;

/// Finding beside memmem, carrying beside memcpy.
pub fn rows(t: &mut Table) {
    for (what, image) in [("fmap find in FF", ff()), ("fmap find in random bytes", work::bytes(LARGEST))] {
        assert_eq!((find(image), memmem_signature(image)), (41, None), "{what}");
        let label = Label::new(what, "memmem").bytes(LARGEST).at_least(FIND_LEAST);
        t.row(label, calls(of(image, find)), calls(of(image, memmem_signature)));
    }
    carry_row(t);
}

/// Images full of signatures, and images twice as long.
pub fn bounds(t: &mut Table) {
    let ff = ff();
    for (what, pattern) in full() {
        let image = work::repeated(LARGEST, &pattern(LARGEST));
        assert_eq!((find(image), memmem_signature(image)), (42, Some(0)), "{what}");
        let label = Label::new(what, "memmem in FF").bytes(LARGEST).at_most_units(FULL_MOST);
        t.row(label, calls(of(image, find)), calls(of(ff, memmem_signature)));
    }
    doubled(t, "fmap find in FF", |size| work::repeated(size, &[0xFF]));
    doubled(t, "fmap find in random bytes", work::bytes);
    for (what, pattern) in full() {
        doubled(t, what, |size| work::repeated(size, &pattern(size)));
    }
}

fn ff() -> &'static [u8] {
    work::repeated(LARGEST, &[0xFF])
}

fn find(image: &[u8]) -> u32 {
    raw::fmap_find(image, &mut 0)
}

/// A pattern for an image of so many bytes.
type Pattern = fn(usize) -> Vec<u8>;

/// Patterns that fill an image with signatures, none of them of a good map.
fn full() -> [(&'static str, Pattern); 2] {
    [
        ("fmap find, a signature every 8 bytes", |_| b"__FMAP__".to_vec()),
        ("fmap find, headers wrong in the count alone", |size| map(size, Vec::new()).to_bytes()),
    ]
}

fn map(size: usize, areas: Vec<Area>) -> Map {
    Map { major: 1, minor: 1, base: 0, size: size as u32, name: b"CHIP".to_vec(), areas, position: 0 }
}

/// The same kind of image of 16 MiB, in units of the time for 8 MiB.
fn doubled(t: &mut Table, what: &str, image: impl Fn(usize) -> &'static [u8]) {
    let (whole, half) = (image(LARGEST), image(LARGEST / 2));
    assert_eq!(find(whole), find(half), "{what}");
    let label = Label::new(what, "itself on 8 MiB").bytes(LARGEST).at_most_units(DOUBLE_MOST);
    t.row(label, calls(of(whole, find)), calls(of(half, find)));
}

/// Both maps stand at the start, so that their search takes no time; memcpy copies the same areas.
fn carry_row(t: &mut Table) {
    let place = |k: usize| map_len(AREAS + 1) + k * MIB;
    let area = |k: usize| Area {
        offset: place(k) as u32,
        size: MIB as u32,
        name: format!("AREA_{k}").into_bytes(),
        flags: PRESERVE,
    };
    let fmap = Area { offset: 0, size: map_len(AREAS + 1) as u32, name: b"FMAP".to_vec(), flags: 0 };
    let mut areas = vec![fmap];
    areas.extend((0..AREAS).map(area));
    let mut old = work::bytes(LARGEST).to_vec();
    let mut new = vec![0; LARGEST];
    let map = map(LARGEST, areas);
    map.write(&mut old);
    map.write(&mut new);
    let copied = move |old: &[u8], new: &mut [u8]| {
        (0..AREAS).map(place).for_each(|at| new[at..at + MIB].copy_from_slice(&old[at..at + MIB]));
    };
    let (mut by_ours, mut by_peer) = (new.clone(), new.clone());
    assert_eq!(raw::fmap_carry(&old, &mut by_ours), 0);
    copied(&old, &mut by_peer);
    assert!(by_ours == by_peer && by_ours != new, "a carry is not what memcpy makes of the areas");
    let old: &'static [u8] = old.leak();
    let label = Label::new("fmap carry, areas of 1 MiB", "memcpy").bytes(AREAS * MIB).at_least(CARRY_LEAST);
    t.row(
        label,
        calls(move || raw::fmap_carry(black_box(old), black_box(&mut by_ours))),
        calls(move || copied(black_box(old), black_box(&mut by_peer))),
    );
}
