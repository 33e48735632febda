//! Unused entries: by which bytes they are, and what becomes of the others.

use crate::topic::{variant, Variant};
use second::rules::{Span, UsedIn, WholeIn};

/// Each rule about used entries, and the sentence that it breaks by taking a stale entry for one.
const USED_IN: [(UsedIn, &str); 17] = [
    (UsedIn::ZeroUnique, "f2"),
    (UsedIn::Range, "f2"),
    (UsedIn::EqualUniques, "f2"),
    (UsedIn::SharedBlocks, "f2"),
    (UsedIn::FreeCounts, "f1"),
    (UsedIn::Delete, "f1"),
    (UsedIn::Rename, "f1"),
    (UsedIn::Resize, "f1"),
    (UsedIn::UniqueTaken, "f1"),
    (UsedIn::NameInAdd, "a1"),
    (UsedIn::NameInRename, "a1"),
    (UsedIn::Check, "k3"),
    (UsedIn::NoSlot, "f1"),
    (UsedIn::NoRoom, "f1"),
    (UsedIn::Slot, "f1"),
    (UsedIn::Start, "f1"),
    (UsedIn::ResizeRoom, "f1"),
];

/// What is about all bytes of the entries, and the sentence that it breaks by taking stale ones for zeros.
const WHOLE_IN: [(WholeIn, &str); 3] =
    [(WholeIn::EntriesCrc, "D1"), (WholeIn::Comparison, "f3"), (WholeIn::Repair, "D24")];

pub fn variants() -> Vec<Variant> {
    let used = USED_IN.map(|(rule, broken)| {
        variant(format!("stale-used-in-{rule:?}"), broken, |r| r.gpt.unused.stale_used_in = Some(rule))
    });
    let whole = WHOLE_IN.map(|(rule, broken)| {
        variant(format!("stale-zero-in-{rule:?}"), broken, |r| r.gpt.unused.stale_zero_in = Some(rule))
    });
    marks().into_iter().chain(used).chain(whole).chain(overwritten()).collect()
}

/// Other bytes that mark an unused entry: without one of the type, or with bytes besides.
fn marks() -> Vec<Variant> {
    let spans = [
        ("D6", 0, 15),
        ("D6", 1, 15),
        ("D6", 16, 16),
        ("f1", 0, 17),
        ("f1", 0, 32),
        ("f1", 0, 56),
        ("f1", 0, 127),
        ("f1", 0, 128),
    ];
    let mark = |(rule, at, len)| {
        let name = format!("unused-by-bytes-{at}-to-{}", at + len - 1);
        variant(name, rule, |r| r.gpt.unused.by = Span { at, len })
    };
    spans.into_iter().map(mark).collect()
}

/// What an add leaves of the slot's bytes, and a delete.
fn overwritten() -> Vec<Variant> {
    let keeps = |name: &str, at, len| {
        variant(format!("add-keeps-{name}"), "f4", |r| r.gpt.unused.add_keeps = Span { at, len })
    };
    vec![
        keeps("where-new-is-zero", 0, 128),
        keeps("attributes", 48, 8),
        keeps("name", 56, 72),
        keeps("last-byte", 127, 1),
        variant("delete-clears-type", "f5", |r| r.gpt.delete_zeroes = 16),
        variant("delete-keeps-name", "f5", |r| r.gpt.delete_zeroes = 56),
    ]
}
