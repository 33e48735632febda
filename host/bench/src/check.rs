//! What is measured must do its work: both sides are held to the same results before any timing.

use crate::disk::Disk;
use crate::work::{bytes, loads, stores, zeros};
use crate::{ours, peers};
use std::path::Path;

/// Partitions of each disk once the work on it is done.
pub const PARTITIONS: usize = 128;

pub fn crc(peer: &str, crc32: impl Fn(&[u8]) -> u32, size: usize) {
    let a = bytes(size);
    assert_eq!(usigrambal::raw::crc32(a), crc32(a), "crc32 of {size} bytes, by {peer}");
}

pub fn octets(size: usize) {
    let (a, z) = (bytes(size), zeros(size));
    assert_eq!(loads(ours::load64)(a), loads(peers::load64)(a), "load64, {size} bytes");
    left_the_same("store64", stores(ours::store64), stores(peers::store64), size);
    left_the_same("copy", |s| ours::copy(s, a), |s| peers::memcpy_copy(s, a), size);
    left_the_same("fill", |s| ours::fill(s, 255), |s| peers::memset_fill(s, 255), size);
    tests("is_zero", ours::is_zero, z);
    tests("the byte loop for zero", peers::byte_is_zero, z);
    tests("same", |s| ours::same(s, a), a);
    tests("the byte loop for same", |s| peers::byte_same(s, a), a);
    tests("memcmp", |s| peers::memcmp_same(s, a), a);
}

/// The disk that is left in a file is in state 1 and has all partitions.
pub fn disk_left(who: &str, path: &Path) {
    let left = Disk::in_file(path);
    assert_eq!(
        (left.read(), left.partitions()),
        (1, PARTITIONS),
        "{who}: state and partitions of the disk left"
    );
}

/// Both sides leave the same bytes, other than those they found.
fn left_the_same<A>(what: &str, ours: impl Fn(&mut [u8]) -> A, peer: impl Fn(&mut [u8]) -> A, size: usize) {
    let found = vec![0x77; size];
    let (mut by_ours, mut by_peer) = (found.clone(), found.clone());
    ours(&mut by_ours);
    peer(&mut by_peer);
    assert!(by_ours == by_peer, "{what}, {size} bytes: not what the peer leaves");
    assert!(by_ours != found, "{what}, {size} bytes: nothing written");
}

/// `test` holds of `right`, and no longer once a bit of its first or last byte is changed.
fn tests(what: &str, test: impl Fn(&[u8]) -> u32, right: &[u8]) {
    assert_eq!(test(right), 1, "{what}, {} bytes", right.len());
    for place in [0, right.len() - 1] {
        let mut wrong = right.to_vec();
        wrong[place] ^= 0x80;
        assert_eq!(test(&wrong), 0, "{what}, {} bytes, byte {place} changed", right.len());
    }
}
