//! The rows of CRC-32 and of the functions on bytes.

use crate::table::{Label, Table};
use crate::timed::calls;
use crate::work::{self, loads, of, of_two, onto, stores};
use crate::{check, ours, peers};
use usigrambal::raw;

/// A GPT header, a short buffer, a GPT's entries, a flash image.
const CRC_SIZES: [usize; 4] = [92, 200, 16 << 10, 16 << 20];
/// A library, how a row calls it, and its Debian package.
const CRC_PEERS: [(&str, &str, &str); 3] = [
    ("zlib", "zlib", "zlib1g-dev"),
    ("byte_loop", "byte loop in C", "gcc"),
    ("crc32fast", "crc32fast", "librust-crc32fast-dev"),
];
/// A GUID, an entry, a GPT's entries, a megabyte.
const OCTETS_SIZES: [usize; 4] = [16, 128, 16 << 10, 1 << 20];

pub fn crc_rows(t: &mut Table) {
    for (library, peer, package) in CRC_PEERS {
        match peers::crc32(library, package) {
            Ok(crc32) => CRC_SIZES.into_iter().for_each(|size| crc_row(t, peer, crc32, size)),
            Err(why) => t.left_out.push(format!("crc32: {why}")),
        }
    }
}

fn crc_row(t: &mut Table, peer: &str, crc32: impl Fn(&[u8]) -> u32 + Copy + 'static, size: usize) {
    check::crc(peer, crc32, size);
    let a = work::bytes(size);
    t.row(Label::new("crc32", peer).bytes(size), calls(of(a, raw::crc32)), calls(of(a, crc32)));
}

pub fn octets_rows(t: &mut Table) {
    OCTETS_SIZES.into_iter().for_each(|size| octets_of(t, size));
}

fn octets_of(t: &mut Table, size: usize) {
    check::octets(size);
    let (a, b, z) = (work::bytes(size), work::bytes(size), work::zeros(size));
    let label = |what: &str, peer: &str| Label::new(what, peer).bytes(size);
    t.row(
        label("load64", "from_le_bytes"),
        calls(of(a, loads(ours::load64))),
        calls(of(a, loads(peers::load64))),
    );
    t.row(
        label("store64", "to_le_bytes"),
        calls(onto(size, stores(ours::store64))),
        calls(onto(size, stores(peers::store64))),
    );
    t.row(label("is_zero", "byte loop"), calls(of(z, ours::is_zero)), calls(of(z, peers::byte_is_zero)));
    t.row(label("same", "byte loop"), calls(of_two(a, b, ours::same)), calls(of_two(a, b, peers::byte_same)));
    t.row(label("same", "memcmp"), calls(of_two(a, b, ours::same)), calls(of_two(a, b, peers::memcmp_same)));
    t.row(
        label("copy", "memcpy"),
        calls(onto(size, |s| ours::copy(s, a))),
        calls(onto(size, |s| peers::memcpy_copy(s, a))),
    );
    t.row(
        label("fill", "memset"),
        calls(onto(size, |s| ours::fill(s, 255))),
        calls(onto(size, |s| peers::memset_fill(s, 255))),
    );
}
