//! What the block size decides, wrong for one of the two sizes.

use crate::topic::{variant, Variant};
use second::rules::{Place, Row, Shape, SHAPES};
use Place::{FromEnd, FromStart};

/// A name, the sentence that says it of 512 bytes, and the change.
type Slip = (String, &'static str, Box<dyn Fn(&mut Shape)>);

fn slip(name: impl Into<String>, rule: &'static str, change: impl Fn(&mut Shape) + 'static) -> Slip {
    (name.into(), rule, Box::new(change))
}

pub fn variants() -> Vec<Variant> {
    let mut variants = names();
    for (k, shape) in SHAPES.iter().enumerate() {
        let slips = [lent(shape), places(shape), usable(shape), written(shape)];
        for (name, rule, change) in slips.into_iter().flatten() {
            let rule = match (k, rule) {
                (0, rule) => rule,
                (_, "D13") => "l2",
                _ => "l1",
            };
            let name = format!("{name}-at-{}", shape.block_len);
            variants.push(variant(name, rule, |r| change(&mut r.gpt.shapes[k])));
        }
    }
    variants
}

/// Which numbers name a block size.
fn names() -> Vec<Variant> {
    let mut variants: Vec<Variant> =
        [(0, 0, 512), (0, 511, 512), (0, 512, 513), (0, 512, 1024), (0, 512, 4096)]
            .into_iter()
            .chain([(1, 4095, 4096), (1, 1024, 4096), (1, 4096, 4097), (1, 4096, 8192), (1, 4096, u64::MAX)])
            .map(|(k, min, max)| {
                variant(format!("{min}-to-{max}-taken-as-{}", SHAPES[k].block_len), "l7", |r| {
                    (r.gpt.shapes[k].named_min, r.gpt.shapes[k].named_max) = (min, max);
                })
            })
            .collect();
    variants.extend([
        variant("blocks-of-512-refused", "l3", |r| r.gpt.shapes[0].named_min = 513),
        variant("blocks-of-4096-refused", "l3", |r| r.gpt.shapes[1].named_min = 4097),
        variant("block-sizes-exchanged", "l3", |r| {
            r.gpt.shapes = [named(SHAPES[0], 4096), named(SHAPES[1], 512)];
        }),
        variant("always-blocks-of-512", "l3", |r| r.gpt.shapes[1] = named(SHAPES[0], 4096)),
        variant("always-blocks-of-4096", "l3", |r| r.gpt.shapes[0] = named(SHAPES[1], 512)),
        variant("block-size-of-32-bits", "l7", |r| r.gpt.block_size_mask = 0xFFFF_FFFF),
        variant("block-size-of-16-bits", "l7", |r| r.gpt.block_size_mask = 0xFFFF),
        variant("format-BlockSize-last", "l7", |r| r.gpt.format_order = last(r.gpt.format_order)),
        variant("read-BlockSize-last", "l7", |r| r.gpt.read_order = last(r.gpt.read_order)),
        variant("add-BlockSize-last", "l7", |r| r.gpt.add_order = last(r.gpt.add_order)),
    ]);
    variants
}

fn named(shape: Shape, block: u64) -> Shape {
    Shape { named_min: block, named_max: block, ..shape }
}

/// The order with the row of the block size at its end.
fn last(order: &[Row]) -> &'static [Row] {
    let rest = order.iter().copied().filter(|row| *row != Row::BlockSize);
    rest.chain([Row::BlockSize]).collect::<Vec<_>>().leak()
}

fn lent(shape: &Shape) -> Vec<Slip> {
    let (least, block, tail_blocks) = (shape.n_min, shape.block_len, shape.tail_len / shape.block_len);
    let other_block = if block == 512 { 4096 } else { 512 };
    vec![
        slip(format!("block-of-{other_block}"), "Q1", move |s| s.block_len = other_block),
        slip(format!("n-{}-taken", least - 1), "Q2", |s| s.n_min -= 1),
        slip(format!("n-{least}-refused"), "Q2", |s| s.n_min += 1),
        slip("n-2^32-refused", "Q2", |s| s.n_max -= 1),
        slip("n-past-2^32-taken", "Q2", |s| s.n_max += 1),
        slip("head-a-byte-longer", "Q3", |s| s.head_len += 1),
        slip("head-a-byte-shorter", "Q3", |s| s.head_len -= 1),
        slip("head-a-block-shorter", "Q3", move |s| s.head_len -= block),
        slip("tail-a-byte-longer", "Q3", |s| s.tail_len += 1),
        slip("tail-a-byte-shorter", "Q3", |s| s.tail_len -= 1),
        slip("tail-a-block-longer", "Q3", move |s| s.tail_len += block),
        slip("tail-from-a-block-before", "Q3", move |s| s.tail_start = FromEnd(tail_blocks as u64 + 1)),
    ]
}

/// Where the copies lie.
fn places(shape: &Shape) -> Vec<Slip> {
    let tail_blocks = (shape.tail_len / shape.block_len) as u64;
    vec![
        slip("primary-header-in-block-0", "D2", |s| s.primary.header = FromStart(0)),
        slip("primary-entries-from-3", "D2", |s| s.primary.entries = FromStart(3)),
        slip("backup-header-in-n-2", "D2", |s| s.backup.header = FromEnd(2)),
        slip("backup-header-first", "D2", move |s| s.backup.header = FromEnd(tail_blocks)),
        slip(format!("backup-entries-from-n-{}", tail_blocks - 1), "D2", move |s| {
            s.backup.entries = FromEnd(tail_blocks - 1);
        }),
        slip(format!("backup-entries-from-n-{}", tail_blocks + 1), "D2", move |s| {
            s.backup.entries = FromEnd(tail_blocks + 1);
        }),
    ]
}

/// The first and the last usable block, in each rule that has them.
fn usable(shape: &Shape) -> Vec<Slip> {
    type Set = fn(&mut Shape, Place);
    let Place::FromStart(first) = shape.usable_first else { unreachable!("counted from the start") };
    let firsts: [(&str, &str, Set); 3] = [
        ("first-usable", "D1", |s, place| s.header_first_usable = place),
        ("entry-from", "D7", |s, place| s.entry_first_min = place),
        ("free-from", "D21", |s, place| s.usable_first = place),
    ];
    let lasts: [(&str, &str, Set); 4] = [
        ("last-usable", "D1", |s, place| s.header_last_usable = place),
        ("entry-to", "D7", |s, place| s.entry_last_max = place),
        ("free-to", "D21", |s, place| s.usable_last = place),
        ("resize-to", "D18", |s, place| s.resize_last_max = place),
    ];
    let mut slips = Vec::new();
    for block in [first - 1, first + 1] {
        for (name, rule, set) in firsts {
            slips.push(slip(format!("{name}-{block}"), rule, move |s| set(s, FromStart(block))));
        }
        for (name, rule, set) in lasts {
            slips.push(slip(format!("{name}-n-{block}"), rule, move |s| set(s, FromEnd(block))));
        }
    }
    slips
}

/// Block 0 and the bytes after a header.
fn written(shape: &Shape) -> Vec<Slip> {
    let mut slips = vec![
        slip("header-tail-without-last-byte", "D14", |s| s.header_tail_end -= 1),
        slip("block-0-without-last-byte", "D13", |s| s.block_0_len -= 1),
        slip("record-of-n-blocks", "D13", |s| s.record_blocks = FromEnd(0)),
        slip("record-in-eighths-of-a-block", "D13", |s| s.record_counts = 8),
    ];
    if shape.block_len > 512 {
        slips.push(slip("header-tail-to-512", "D14", |s| s.header_tail_end = 512));
        slips.push(slip("block-0-kept-from-512", "D13", |s| s.block_0_len = 512));
    }
    slips
}
