//! Names that no two partitions carry: how they are compared, whose count, and what becomes of a disk that has one twice.

use crate::topic::{variant, Variant};
use second::rules::{NameSlip, Span};

/// What is wrong, and the sentence that it breaks.
const SLIPS: [(NameSlip, &str); 10] = [
    (NameSlip::UpToZero, "a1"),
    (NameSlip::WithoutCase, "a1"),
    (NameSlip::LowBytes, "a1"),
    (NameSlip::HighBytes, "a1"),
    (NameSlip::BeginsAnother, "a1"),
    (NameSlip::AnotherBegins, "a1"),
    (NameSlip::SlotsBefore, "a1"),
    (NameSlip::SlotsBehind, "a1"),
    (NameSlip::OwnName, "a1"),
    (NameSlip::OfDoubles, "a3"),
];

/// Bytes of a name that are compared instead of all 72.
const COMPARED: [(usize, usize); 8] = [(0, 1), (0, 2), (0, 32), (0, 64), (0, 70), (0, 71), (1, 71), (2, 70)];

pub fn variants() -> Vec<Variant> {
    let slips =
        SLIPS.map(|(slip, rule)| variant(format!("names-{slip:?}"), rule, |r| r.gpt.names.slip = Some(slip)));
    let compared = COMPARED.map(|(at, len)| {
        let name = format!("names-compared-in-bytes-{at}-to-{}", at + len - 1);
        variant(name, "a1", |r| r.gpt.names.compared = Span { at, len })
    });
    let slots = [(1, 127), (0, 127)].map(|(at, len)| {
        let name = format!("names-of-slots-{}-to-{}", at + 1, at + len);
        variant(name, "a1", |r| r.gpt.names.slots = Span { at, len })
    });
    // The low byte of the first unit, or its high one.
    let empty = [0, 1].map(|at| {
        variant(format!("name-empty-by-byte-{at}"), "a2", |r| r.gpt.names.empty_by = Span { at, len: 1 })
    });
    let others = [
        variant("own-name-taken", "a1", |r| r.gpt.names.own_counts = true),
        variant("empty-name-taken", "a2", |r| r.gpt.names.empty_repeats = false),
        variant("doubles-do-not-read", "a3", |r| r.gpt.names.doubles_good = false),
        variant("names-in-lists-by-first-unit", "a1", |r| r.gpt.ledger.names_differ_in = 2),
        variant("empty-names-in-lists-differ", "a2", |r| r.gpt.ledger.empty_names_repeat = false),
    ];
    slips.into_iter().chain(compared).chain(slots).chain(empty).chain(others).collect()
}
