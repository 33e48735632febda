//! The first inputs of the target of layout strings: document 004's strings, and strings that each row refuses.

use crate::calls::{FIRST_SLOTS, LONGER, LONGEST};
use crate::disk::{ANY_BLOCK_SIZE, OTHER_BLOCK_SIZE};
use crate::input::{alignment, number};
use testkit::disk::{Shape, SHAPES};
use testkit::fixture;
use testkit::strings::{as_printed, many, numbered_guid, samples, SHORT_NAMES};

/// What comes before the text: blocks, block size, both lengths, alignment, what head and tail hold, and the kind of text.
struct Before {
    n: u64,
    block: Vec<u8>,
    lengths: [u8; 2],
    alignment: u64,
    kind: u8,
}

impl Before {
    fn of(shape: Shape, n: u64, alignment: u64) -> Before {
        Before { n, block: vec![tag(shape)], lengths: [0, 0], alignment, kind: 0 }
    }

    fn input(&self, text: &str) -> Vec<u8> {
        let Before { n, block, lengths, alignment: at, kind } = self;
        [&number(*n)[..], block, lengths, &alignment(*at), &[0xA5, *kind], text.as_bytes()].concat()
    }
}

fn tag(shape: Shape) -> u8 {
    u8::from(shape == SHAPES[1])
}

pub fn strings() -> Vec<Vec<u8>> {
    let mut inputs = Vec::new();
    for sample in samples() {
        let before = Before::of(Shape::of(sample.block), sample.n, sample.alignment);
        inputs.push(before.input(&sample.text));
    }
    let fixtures =
        fixture::files("gpt", "disk").into_iter().map(|path| fixture::disk(&path).expect("a disk"));
    for fixture in fixtures {
        if let Some((alignment, text)) = fixture.string {
            inputs.push(Before::of(fixture.disk.shape(), fixture.disk.n, alignment).input(&text));
        }
    }
    inputs.extend(as_printed().iter().map(|text| Before::of(SHAPES[0], 1 << 20, 1).input(text)));
    for shape in SHAPES {
        inputs.extend(calls(shape));
        let before = Before::of(shape, shape.least_blocks() + 200, 1);
        inputs.extend(texts(shape).iter().map(|text| before.input(text)));
        inputs.extend(aligned(shape));
    }
    inputs
}

/// The string of these partitions, each with a name and a GUID of its own.
fn string(partitions: &[String]) -> String {
    let mut text = format!("uuid_disk={}", numbered_guid(0xD));
    for (partition, number) in partitions.iter().zip(1..) {
        text += &format!(";name=p{number},uuid={},{partition}", numbered_guid(number));
    }
    text
}

/// Lengths, block sizes and numbers of blocks; kinds of text; other alignments.
fn calls(shape: Shape) -> Vec<Vec<u8>> {
    let text = string(&[format!("size={}", shape.block), "size=0".into()]);
    let n = shape.least_blocks() + 32;
    let good = || Before::of(shape, n, 1);
    let mut before = vec![
        good(),
        Before { lengths: [0xF6, 0], ..good() },
        Before { lengths: [0xF8, 0xFF], ..good() },
        Before { lengths: [0, 0xF6], ..good() },
        Before { block: vec![OTHER_BLOCK_SIZE + tag(shape)], ..good() },
        Before { block: vec![ANY_BLOCK_SIZE, 0], ..good() },
        Before { block: vec![ANY_BLOCK_SIZE, 0xE0, 0, 4], ..good() },
    ];
    before.extend([LONGEST, LONGER, FIRST_SLOTS].map(|kind| Before { n: n + 200, kind, ..good() }));
    let counts =
        [shape.least_blocks() - 1, shape.least_blocks(), shape.least_blocks() + 1, 1 << 32, (1 << 32) + 1];
    before.extend(counts.map(|n| Before::of(shape, n, 1)));
    before.extend([8, 2048, 0, 3, 16, (1 << 32) + 8].map(|at| Before::of(shape, 5000, at)));
    let texts = [text.clone(), format!("{text};;"), text.replacen(&numbered_guid(0xD), ZERO, 1)];
    before.iter().flat_map(|before| texts.iter().map(|text| before.input(text))).collect()
}

const ZERO: &str = "00000000-0000-0000-0000-000000000000";

/// Strings that are right or nearly so, on a disk of 201 usable blocks.
fn texts(shape: Shape) -> Vec<String> {
    let b = shape.block;
    let one = |fields: &str| string(&[fields.to_string()]);
    let size = format!("size={b}");
    let at =
        |block: u64, blocks: u64| format!("start={},size={}", (shape.first_usable + block) * b, blocks * b);
    let numbers = [
        "0",
        "00KiB",
        "1",
        "511",
        "512",
        "4095",
        "4096",
        "4KiB",
        "04KiB",
        "6KiB",
        "1MiB",
        "1GiB",
        "1TiB",
        "4KiBKiB",
        "60Mib",
        "4K",
        "KiB",
        "",
        "0x1000",
        "18446744073709547520",
        "18446744073709551615",
        "18446744073709551616",
        "18014398509481983KiB",
        "18014398509481984KiB",
        "17592186044416MiB",
        "17179869184GiB",
    ];
    let names = ["", "=", "a=b", "!", "~", "a b", "\x7F"].map(String::from);
    let lengths = [1, 35, 36, 37].map(|len| "n".repeat(len));
    let types = SHORT_NAMES.iter().flat_map(|(name, guid)| [name, guid]).copied();
    let types = types.chain(["raid", "DATA", "", ZERO, "c12a7328-f81f-11d2-ba4b-00a0c93ec93b", "C12A7328"]);
    let words = [
        "bootable",
        "bootable=1",
        "bootable=",
        "flags=1",
        "name=b",
        "uuid_disk=6E0B6FAB-1C46-4B6B-8F25-000000000001",
        "",
        "Bootable",
        "start",
        "size=0",
    ];
    let mut texts: Vec<String> = numbers.iter().map(|number| one(&format!("size={number}"))).collect();
    texts.extend(numbers.iter().map(|number| one(&format!("{size},start={number}"))));
    texts.extend(
        names
            .into_iter()
            .chain(lengths)
            .map(|name| one(&size).replacen("name=p1", &format!("name={name}"), 1)),
    );
    texts.extend(types.map(|kind| one(&format!("{size},type={kind}"))));
    texts.extend(words.iter().map(|word| one(&format!("{size},{word}"))));
    let ends = [";", ";;", ";\n", "\n", " ", ","];
    texts.extend(ends.iter().map(|end| one(&size) + end));
    let taken = one(&size);
    texts.extend([
        string(&[size.clone(), size.clone()]),
        string(&[size.clone(), size.clone()]).replacen("name=p2", "name=p1", 1),
        string(&[size.clone(), size.clone()]).replacen(&numbered_guid(2), &numbered_guid(1), 1),
        string(&["size=0".into(), size.clone()]),
        taken.replacen(&numbered_guid(1), ZERO, 1),
        taken.replacen(&numbered_guid(1), &numbered_guid(0xD), 1),
        taken.replacen("uuid_disk=", "UUID_DISK=", 1),
        taken.replacen("uuid_disk=", "", 1),
        format!("uuid_disk={};bootable,{size},uuid={},name=a", numbered_guid(0xD), numbered_guid(1)),
        string(&[]),
        string(&[]) + ";",
        many(128, b),
        many(129, b),
        many(130, b),
    ]);
    for start in [0, 1, 49, 50, 54, 55, 199, 200, 201] {
        for blocks in [0, 1, 5, 50, 51, 146, 147] {
            texts.push(string(&[at(50, 5), at(start, blocks)]));
            texts.push(string(&[at(50, 5), at(start, blocks), size.clone()]));
        }
    }
    for blocks in [0, 1, 50, 51, 146, 147] {
        texts.push(string(&[at(50, 5), format!("size={}", blocks * b)]));
        texts.push(string(&[format!("size={b}"), at(50, 5), format!("size={}", blocks * b)]));
    }
    texts
}

/// At multiples: runs that hold none, that begin before one or end with one; and another alignment where a start is given.
fn aligned(shape: Shape) -> Vec<Vec<u8>> {
    let (b, first) = (shape.block, shape.first_usable);
    let started = string(&[format!("start={},size=0", first * b)]);
    let mut inputs = vec![Before::of(shape, 100, 3).input(&started)];
    for alignment in [8, 2048] {
        let multiple = first.next_multiple_of(alignment);
        for n in [multiple - 1 + first, multiple + first, multiple + first + 1, 3 * alignment + first] {
            for partitions in [
                vec!["size=0".to_string()],
                vec![format!("size={b}")],
                vec![format!("size={}", 2 * b), "size=0".into()],
                vec![format!("start={},size={b}", first * b), "size=0".into()],
                vec![
                    format!("start={},size={b}", (multiple - 1) * b),
                    format!("start={},size=0", multiple * b),
                ],
                vec![format!("start={},size={b}", multiple * b), "size=0".into()],
            ] {
                inputs.push(
                    Before::of(shape, n.max(shape.least_blocks()), alignment).input(&string(&partitions)),
                );
            }
        }
    }
    inputs
}
