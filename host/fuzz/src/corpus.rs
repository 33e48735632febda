//! The first inputs of each target, from the fixtures.

mod strings;

use crate::disk::{
    ALL_SLOTS, ANY_BLOCK_SIZE, ATTRIBUTES, CLEAR_TYPE, FLIP, MANY, NAME, OF_CALL, OTHER_BLOCK_SIZE, PLACE,
};
use crate::input::{alignment, attributes, number, rule};
use crate::{disk, flash};
use testkit::disk::{Shape, SHAPES};
use testkit::fixture;

/// Numbers of rules about attributes: the present one, then others, which all are the earlier one.
const RULES: [u64; 5] = [0, 1, 2, 1 << 32, u64::MAX];

/// Bits at the edges of what a rule wants zero, and all.
const BITS: [u64; 9] = [1, 2, 4, 8, 1 << 47, 1 << 48, 1 << 63, 0xFFFF_0000_0000_0007, u64::MAX];

/// Arguments of an add with each of these attributes by each rule.
fn judged() -> Vec<Vec<u8>> {
    let new =
        |bits, number| [vec![0, 0x61, 0, 0x62, 1, 0], attributes(bits), rule(number), vec![0; 5]].concat();
    BITS.iter().flat_map(|bits| RULES.map(|number| new(*bits, number))).collect()
}

/// Arguments of a call that come after a disk's lengths, before its script.
fn disk_arguments(call: &str) -> Vec<Vec<u8>> {
    let guid = |tag: u8| vec![0, tag];
    let name = |filled: u8, place: u8, unit: u8| vec![0, filled, place, unit, 0];
    // Its first unit has a zero byte below.
    let high = vec![0, 4, 0, 0, 1];
    match call {
        "usi_gpt_format" => vec![guid(0x61), guid(0), vec![0xF8, 0x61]],
        "usi_gpt_add" => {
            let new = |size: u8, at: u64, name: Vec<u8>| {
                [guid(0x61), guid(0x62), vec![size], alignment(at), attributes(0), rule(1), name].concat()
            };
            let names = [
                (1, name(4, 0, 0)),
                (1, name(0, 0, 0)),
                (1, name(36, 0, 0)),
                (1, high),
                (0, name(4, 0, 0)),
                (30, name(2, 5, 7)),
                (200, name(36, 0, 0)),
            ];
            // To the last usable block or past it, on the disks of 100 and of 2,100 blocks.
            let places = [(1, 8), (27, 8), (28, 8), (1, 2048), (19, 2048), (20, 2048)];
            let refused = [0, 16, (1 << 32) + 8].map(|at| (1, at));
            let aligned = places.into_iter().chain(refused).map(|(size, at)| new(size, at, name(4, 0, 0)));
            names.map(|(size, name)| new(size, 1, name)).into_iter().chain(aligned).collect()
        }
        "usi_gpt_check" => RULES.map(rule).to_vec(),
        "usi_gpt_delete" => vec![vec![1], vec![2], vec![0], vec![129]],
        "usi_gpt_resize" => vec![vec![1, 1], vec![1, 200], vec![2, 0], vec![7, 20]],
        "usi_gpt_rename" => {
            let to = |slot: u8, name: Vec<u8>| [vec![slot], name].concat();
            let names = [name(36, 0, 0), name(4, 0, 0), name(0, 0, 0), high].map(|name| to(1, name));
            [&names[..], &[to(2, name(3, 9, 9)), vec![0]]].concat()
        }
        _ => vec![vec![]],
    }
}

fn disks(call: &str) -> Vec<Vec<u8>> {
    let mut inputs = Vec::new();
    for path in fixture::files("gpt", "disk") {
        let disk = fixture::disk(&path).expect("a disk").disk;
        for arguments in disk_arguments(call) {
            inputs.push([disk::encoded_lengths(&disk), arguments, disk::encoded(&disk)].concat());
        }
    }
    for arguments in disk_arguments(call) {
        for (tag, shape) in (0..).zip(SHAPES) {
            inputs.extend(by_scripts(tag, shape, &arguments));
        }
        // Block sizes 0, 1024 and 2^64-1, and the one that the disk does not have.
        for block in [&[ANY_BLOCK_SIZE, 0][..], &[ANY_BLOCK_SIZE, 0xE0, 0, 4], &[ANY_BLOCK_SIZE, 0xE5, 0]] {
            inputs.push([&[100], block, &[0, 0], &arguments, &[0]].concat());
        }
        for tag in [OTHER_BLOCK_SIZE, OTHER_BLOCK_SIZE + 1] {
            inputs.push([&[100, tag, 0, 0], &arguments[..], &[0]].concat());
        }
    }
    if call == "usi_gpt_add" {
        // On an empty disk, and on one with partitions in all slots.
        for (arguments, tag) in judged().iter().flat_map(|arguments| [(arguments, 0), (arguments, 1)]) {
            inputs.push([&[100, tag, 0, 0], &arguments[..], &[0]].concat());
            inputs.push([&[230, tag, 0, 0], &arguments[..], &[0, MANY, 128, 2]].concat());
        }
    }
    inputs
}

/// An empty disk of 33 usable blocks, one with a partition of each size to 3 by steps of a script, one of 2,100 blocks, the
/// same with the blocks from 2048 on free, the largest with its last usable block free, one of 230 blocks with partitions in
/// all slots, those with stale entries, those with the call's name or with a name twice, those with attributes, and three
/// that are refused for lengths or number of blocks.
fn by_scripts(tag: u8, shape: Shape, arguments: &[u8]) -> Vec<Vec<u8>> {
    let (least, first) = (shape.least_blocks(), shape.first_usable);
    let input = |n: u64, lengths: [u8; 2], script: &[u8]| {
        [&number(n)[..], &[tag, lengths[0], lengths[1]], arguments, &[0], script].concat()
    };
    let n = least + 32;
    let partitions = partitions(shape);
    let mut inputs = vec![
        input(n, [0, 0], &[]),
        input(n, [0, 0], &partitions),
        input(2100, [0, 0], &[]),
        input(2100, [0, 0], &place(0, first, 2048 - first, 1)),
        input(1 << 32, [0, 0], &place(0, first, shape.usable(1 << 32) - 1, 1)),
        input(230, [0, 0], &[MANY, 128, 2]),
        input(230, [0, 0], &[MANY, 128, 2, CLEAR_TYPE, ALL_SLOTS, 0]),
        input(n, [0xF6, 0], &[]),
        input(least - 1, [0, 0xFF], &[]),
        input(least - 1, [0, 0], &[]),
    ];
    let steps = stale(shape).into_iter().chain(named(shape)).chain(offending(shape));
    inputs.extend(steps.map(|steps| input(n, [0, 0], &[&partitions[..], &steps].concat())));
    inputs
}

/// Slots 1, 2 and 7, from the first, the seventh and the 27th usable block on; the last byte of their entries is not zero.
fn partitions(shape: Shape) -> Vec<u8> {
    let place = |(slot, at, size)| place(slot, shape.first_usable + at, size, size as u8);
    [(0, 0, 1), (1, 6, 2), (6, 26, 3)].map(place).concat()
}

fn place(slot: u8, first: u64, size: u64, unique: u8) -> Vec<u8> {
    [&[PLACE, slot, 0], &number(first)[..], &number(size), &[9, unique, 72 + 71]].concat()
}

/// What makes slot 1 stale: then its block is in another partition, or a stale byte is not the same in both copies.
fn stale(shape: Shape) -> [Vec<u8>; 2] {
    const CLEARED: [u8; 3] = [CLEAR_TYPE, 0, 0];
    [
        [&CLEARED[..], &place(8, shape.first_usable, 1, 7)].concat(),
        [&CLEARED[..], &[FLIP, 1, 100, 0]].concat(),
    ]
}

/// What gives slot 1 or slot 7 the call's name, as it is or but for one byte: the case of a letter, the high byte of a unit,
/// the last byte of all, the unit behind the name or the one after that; then both, then the last slot, then a stale one;
/// then a name twice that the call does not give.
fn named(shape: Shape) -> Vec<Vec<u8>> {
    let name = |slot: u8, from: u8, at: u8, change: u8| vec![NAME, slot, 0, from, at, change];
    let same = |slot: u8| name(slot, OF_CALL, 0, 0);
    let near = [(0, 0x20), (7, 1), (71, 1), (8, 0x7A), (10, 0x7A)].map(|(at, by)| name(6, OF_CALL, at, by));
    let one = [same(0), same(6)].into_iter().chain(near);
    let both = [same(0), same(6)].concat();
    let last = [place(127, shape.first_usable + 20, 1, 4), same(127)].concat();
    let stale = [same(6), vec![CLEAR_TYPE, 6, 0]].concat();
    let twice = [name(1, OF_CALL, 0, 0x7F), name(6, 1, 0, 0)].concat();
    one.chain([both, last, stale, twice]).collect()
}

/// What gives attributes to slot 1, or to slots 2 and 7 and another one in front of them, to slot 7 of one copy, to a stale
/// slot, to the last one.
fn offending(shape: Shape) -> Vec<Vec<u8>> {
    let set = |slot: u8, sides: u8, bits| [vec![ATTRIBUTES, slot, sides], attributes(bits)].concat();
    let two = [set(0, 0, 2), set(1, 0, 1 << 47), set(6, 0, 8)].concat();
    let stale = [set(0, 0, u64::MAX), vec![CLEAR_TYPE, 0, 0], set(6, 0, 4)].concat();
    let last = [place(127, shape.first_usable + 20, 1, 4), set(127, 0, 8)].concat();
    vec![set(0, 0, 8), set(0, 0, 1 << 48), two, set(6, 1, 8), set(6, 2, 1 << 47), stale, last]
}

/// Images of 220 bytes by steps of a script, with areas FMAP, A and B, the latter two preserved; then B elsewhere, of another size, none.
fn small_images(seed: u8) -> Vec<Vec<u8>> {
    let map = |count: u8, b: &[u8]| {
        [&[220, 0, 5, seed, 1, 0, 0, count, 0, 182, 0, 184, 8, 0x81], b, &[0xFF]].concat()
    };
    vec![map(3, &[200, 10, 0x82]), map(3, &[210, 10, 0x82]), map(3, &[200, 9, 0x82]), map(2, &[])]
}

fn images(call: &str) -> Vec<Vec<u8>> {
    // An image too short.
    let mut inputs = if call == "usi_fmap_fault" { vec![vec![0, 0, 50, 0]] } else { Vec::new() };
    let files = fixture::files("fmap", "flash");
    let fixtures: Vec<_> = files.iter().map(|path| fixture::flash(path).expect("an image")).collect();
    for one in small_images(0x11) {
        match call {
            "usi_fmap_fault" => inputs.extend([[0, 0], [1, 5]].map(|place| [&place, &one[..]].concat())),
            "usi_fmap_area" => inputs.push([&[1, 0], &one[..]].concat()),
            "usi_fmap_named" => inputs.push([&[1, b'A'], &one[..]].concat()),
            "usi_fmap_carry" => {
                inputs.extend(small_images(0xEE).iter().map(|other| [&one[..], other].concat()));
            }
            _ => inputs.push(one),
        }
    }
    for fixture in &fixtures {
        let image = flash::encoded(&fixture.image);
        match call {
            "usi_fmap_fault" => {
                inputs.extend([[0, 0], [2, 0], [1, 0xF1]].map(|place| [&place, &image[..]].concat()))
            }
            "usi_fmap_area" => {
                inputs.extend([&[0, 0], &[1, 0], &[200, 0], &[0, 0xF1]].map(|a| [&a[..], &image].concat()))
            }
            "usi_fmap_named" => {
                let names = fixture.areas.iter().map(|area| area.name.as_bytes()).take(3);
                for name in names.chain([&b"FMAP"[..], b"", b"NONE"]) {
                    inputs.push([&[name.len() as u8], name, &image].concat());
                }
            }
            "usi_fmap_carry" => {
                inputs.push([&image[..], &image].concat());
                let others = fixtures.iter().map(|other| flash::encoded(&other.image));
                inputs.extend(others.map(|other| [&image[..], &other].concat()));
            }
            _ => inputs.push(image),
        }
    }
    inputs
}

fn texts(call: &str) -> Vec<Vec<u8>> {
    let before: &[&[u8]] = match call {
        "usi_fmd_write" => &[&[0, 0x5A, 0], &[0xF6, 0, 0], &[0, 0, 0xFE]],
        _ => &[&[0, 0], &[0xF6, 0], &[0, 0xFF]],
    };
    let files = fixture::files("fmd", "layout");
    let texts = files.iter().map(|path| fixture::layout(path).expect("a text").text);
    texts.flat_map(|text| before.iter().map(move |before| [before, &text[..]].concat())).collect()
}

/// GUIDs of the disks, as text or as stored.
fn guids(call: &str) -> Vec<Vec<u8>> {
    let files = fixture::files("gpt", "disk");
    let disks = files.iter().map(|path| fixture::disk(path).expect("a disk"));
    let partitions: Vec<_> = disks.flat_map(|disk| disk.partitions).take(12).collect();
    let texts = partitions.iter().flat_map(|partition| [partition.kind.clone(), partition.unique.clone()]);
    let names = ["system", "msft", "data", "linux", "swap", "Data", ""].map(String::from);
    let texts = texts.chain(names);
    match call {
        "usi_guid_write" => texts
            .map(|text| {
                let mut stored = vec![0; 16];
                second::guid_read(&second::RULES, text.as_bytes(), &mut stored);
                [&[0], &stored[..]].concat()
            })
            .chain([vec![0, 1, 2], [&[0xF6], &[7; 16][..]].concat()])
            .collect(),
        _ => texts.flat_map(|text| [0, 0xF6].map(|length| [&[length], text.as_bytes()].concat())).collect(),
    }
}

/// Inputs for the target of a call, by its name in the C interface.
pub fn corpus(call: &str) -> Vec<Vec<u8>> {
    match call {
        "usi_crc32" => [texts(call), guids(call)].concat(),
        "usi_gpt_build" => strings::strings(),
        _ if call.starts_with("usi_gpt_") => disks(call),
        _ if call.starts_with("usi_fmap_") => images(call),
        _ if call.starts_with("usi_fmd_") => texts(call),
        _ => guids(call),
    }
}
