//! Attribute bits that a rule wants zero: which ones, which number names which rule, what an add judges, and which slot a
//! check answers.

use crate::topic::{variant, Variant};
use second::rules::{AddJudges, BitRules, Bits, Checked, Offender, Row, Rules, Span};

/// Bits that are wanted zero instead, by the present rule and by the earlier one.
const PRESENT: [(u32, u32); 7] = [(0, 47), (1, 47), (2, 47), (4, 47), (3, 31), (3, 46), (3, 48)];
const EARLIER: [(u32, u32); 7] = [(0, 47), (2, 47), (3, 47), (1, 31), (1, 46), (1, 48), (1, 63)];

/// Numbers of the present rule instead of 0 alone.
const NAMED: [&[u64]; 6] = [&[], &[1], &[0, 1], &[0, 2], &[0, 1 << 32], &[0, u64::MAX]];

/// Bits of the number that are looked at instead of all.
const NAMED_BITS: [u64; 4] = [1, 0xFFFF, 0xFFFF_FFFF, !(1 << 63)];

/// The rules of one call.
type Of = fn(&mut Rules) -> &mut BitRules;

pub fn variants() -> Vec<Variant> {
    let in_add = bits("add", |r| &mut r.gpt.attributes.in_add);
    let in_check = bits("check", |r| &mut r.gpt.attributes.in_check);
    in_add.into_iter().chain(in_check).chain(rows()).chain(checks()).chain(lists()).collect()
}

fn bits(call: &str, of: Of) -> Vec<Variant> {
    let zero = |rule: &str, (first, last): (u32, u32), field: fn(&mut BitRules) -> &mut Bits| {
        let name = format!("{call}-wants-{first}-to-{last}-zero-by-{rule}");
        variant(name, "k1", |r| *field(of(r)) = Bits { first, last })
    };
    let present = PRESENT.map(|bits| zero("present", bits, |rules| &mut rules.present));
    let earlier = EARLIER.map(|bits| zero("earlier", bits, |rules| &mut rules.earlier));
    let named = NAMED.map(|numbers| {
        variant(format!("{call}-present-by-{numbers:?}"), "k2", |r| of(r).named_present = numbers)
    });
    let named_bits = NAMED_BITS
        .map(|bits| variant(format!("{call}-rule-by-bits-{bits:X}"), "k2", |r| of(r).named_bits = bits));
    let others = [
        variant(format!("{call}-exchanges-the-rules"), "k2", |r| {
            (of(r).present, of(r).earlier) = (of(r).earlier, of(r).present);
        }),
        variant(format!("{call}-offended-by-two-bits"), "k1", |r| of(r).offending = 2),
        variant(format!("{call}-counts-bits-from-the-highest"), "k1", |r| of(r).from_highest = true),
        variant(format!("{call}-judges-nothing"), "k1", |r| of(r).offending = 65),
    ];
    present.into_iter().chain(earlier).chain(named).chain(named_bits).chain(others).collect()
}

/// 28 where it does not stand, or for what was not given; 11 and 28 in a check.
fn rows() -> Vec<Variant> {
    let with = |rows: &[Row], row: Row| -> &'static [Row] { [rows, &[row]].concat().leak() };
    let bits = Row::AttributeBits;
    vec![
        variant("delete-AttributeBits-too", "k6", |r| r.gpt.delete_order = with(r.gpt.delete_order, bits)),
        variant("rename-AttributeBits-too", "k6", |r| r.gpt.rename_order = with(r.gpt.rename_order, bits)),
        variant("resize-AttributeBits-too", "k6", |r| r.gpt.resize_order = with(r.gpt.resize_order, bits)),
        variant("check-NotSame-too", "k6", |r| r.gpt.check_order = with(r.gpt.check_order, Row::NotSame)),
        variant("check-AttributeBits-too", "k6", |r| r.gpt.check_order = with(r.gpt.check_order, bits)),
        variant("add-judges-the-table-too", "k2", |r| r.gpt.attributes.add_judges = AddJudges::TableToo),
        variant("add-judges-the-slot-too", "k2", |r| r.gpt.attributes.add_judges = AddJudges::SlotToo),
    ]
}

fn checks() -> Vec<Variant> {
    let answers = [Offender::Last, Offender::Count, Offender::Whether].map(|answers| {
        variant(format!("check-answers-{answers:?}"), "k3", |r| r.gpt.attributes.answers = answers)
    });
    let copies = [Checked::Backup, Checked::Either].map(|checked| {
        variant(format!("check-of-{checked:?}"), "k3", |r| r.gpt.attributes.checked = checked)
    });
    let slots = [(1, 127), (0, 127), (0, 4)].map(|(at, len)| {
        let name = format!("check-of-slots-{}-to-{}", at + 1, at + len);
        variant(name, "k3", |r| r.gpt.attributes.slots = Span { at, len })
    });
    let places = [40, 47, 49, 56]
        .map(|at| variant(format!("check-reads-at-{at}"), "k3", |r| r.gpt.attributes.check_reads_at = at));
    let others = [
        variant("check-answers-slot-less-1", "k3", |r| r.gpt.attributes.first_slot = 0),
        variant("check-answers-slot-and-1", "k3", |r| r.gpt.attributes.first_slot = 2),
        variant("check-answers-129-for-none", "k3", |r| r.gpt.attributes.none_answers = Some(129)),
        variant("check-answers-nothing-for-none", "k3", |r| r.gpt.attributes.none_answers = None),
    ];
    answers.into_iter().chain(copies).chain(slots).chain(places).chain(others).collect()
}

/// What is claimed after a list of calls.
fn lists() -> Vec<Variant> {
    let any = [(2, 47), (3, 48), (0, 47)].map(|(first, last)| {
        let name = format!("lists-leave-{first}-to-{last}-zero");
        variant(name, "k1", |r| r.gpt.ledger.zero_after_any = Bits { first, last })
    });
    let earlier = [(0, 47), (1, 48)].map(|(first, last)| {
        let name = format!("lists-by-earlier-leave-{first}-to-{last}-zero");
        variant(name, "k1", |r| r.gpt.ledger.zero_after_earlier = Bits { first, last })
    });
    let others = [
        variant("lists-by-either-leave-1-to-47-zero", "k2", |r| r.gpt.ledger.after_earlier_alone = false),
        variant("present-passes-earlier", "k4", |r| r.gpt.ledger.passes = [0, 1]),
    ];
    any.into_iter().chain(earlier).chain(others).collect()
}
