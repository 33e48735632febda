mod places;
mod texts;

use crate::topic::{number_variants, order_variants, variant, Order, Variant};
use second::rules::{Keeps, Row};

pub const RULES_TO_BREAK: &[&str] =
    &["b1", "b2", "b3", "b4", "b5", "b6", "b7", "b8", "b9", "b10", "e2", "e3", "k5", "l5"];

pub fn all() -> Vec<Variant> {
    let groups = [
        number_variants(NUMBERS),
        order_variants(ORDERS),
        rows(),
        texts::variants(),
        places::variants(),
        written(),
        sums(),
    ];
    groups.into_iter().flatten().collect()
}

/// Another number for each refusal.
const NUMBERS: &[(Row, &str, u32)] = &[
    (Row::BlockSize, "b10", 2),
    (Row::WrongLength, "b10", 70),
    (Row::BadBlockCount, "b10", 1),
    (Row::StringForm, "b6", 50),
    (Row::ZeroDiskGuid, "b10", 70),
    (Row::NotWholeBlocks, "b10", 70),
    (Row::StartTaken, "b10", 25),
    (Row::ZeroSize, "b10", 70),
    (Row::Alignment, "b10", 70),
    (Row::ZeroType, "b10", 70),
    (Row::UniqueTaken, "b10", 70),
    (Row::NameTaken, "b10", 70),
    (Row::NoSlot, "b10", 70),
    (Row::NoRoom, "b10", 72),
];

const ORDERS: &[Order] = &[
    ("build", "b10", |r| &mut r.gpt.strings.order, None),
    ("partition", "b10", |r| &mut r.gpt.strings.partition_order, None),
];

/// Rows that a string does not have.
fn rows() -> Vec<Variant> {
    let before = |rows: &[Row], row: Row, next: Row| -> &'static [Row] {
        let at = rows.iter().position(|other| *other == next).unwrap_or(rows.len());
        [&rows[..at], &[row], &rows[at..]].concat().leak()
    };
    let whole = |row: Row| {
        variant(format!("build-{row:?}-too"), "b10", |r| {
            r.gpt.strings.order = before(r.gpt.strings.order, row, Row::StringForm);
        })
    };
    vec![
        whole(Row::NoGoodCopy),
        whole(Row::NotSame),
        variant("bootable-by-the-earlier-rule", "k5", |r| {
            let order = r.gpt.strings.partition_order;
            r.gpt.strings.partition_order = before(order, Row::AttributeBits, Row::NoSlot);
        }),
        variant("70-partition-by-partition", "b10", |r| r.gpt.strings.whole_text_judged = false),
        variant("refused-string-zeroes-a-byte", "b10", |r| r.refusals.zeroes = 1),
    ]
}

/// What is left of head and tail, and which slots the partitions get.
fn written() -> Vec<Variant> {
    let kept = [Keeps::Block0, Keeps::Partitions, Keeps::HeaderTails, Keeps::Primary, Keeps::Backup];
    let keeps = kept
        .map(|keeps| variant(format!("string-keeps-{keeps:?}"), "b1", |r| r.gpt.strings.keeps = Some(keeps)));
    let slots = [
        variant("slots-from-2", "b10", |r| r.gpt.strings.first_index = 1),
        variant("slots-from-the-last", "b10", |r| r.gpt.strings.in_text_order = false),
        variant("127-slots", "b10", |r| r.gpt.strings.slots = 127),
        variant("129-slots", "b10", |r| r.gpt.strings.slots = 129),
        variant("129-partitions-out-of-form", "b10", |r| r.gpt.strings.partitions_max = 128),
        variant("disk-guid-taken", "b10", |r| r.gpt.strings.disk_guid_taken = true),
    ];
    keeps.into_iter().chain(slots).collect()
}

fn sums() -> Vec<Variant> {
    vec![
        variant("sums-go-on-after-a-string", "b9", |r| r.gpt.ledger.strings.starts_afresh = false),
        variant("partitions-of-a-string-no-grants", "b9", |r| {
            r.gpt.ledger.strings.partitions_granted = false;
        }),
        variant("size-0-no-grant", "b9", |r| r.gpt.ledger.strings.open_granted = false),
        variant("string-grants-one-more", "b9", |r| r.gpt.ledger.strings.grants_besides = 1),
        variant("string-grants-to-the-next-slot", "b9", |r| r.gpt.ledger.strings.first_slot = 2),
    ]
}
