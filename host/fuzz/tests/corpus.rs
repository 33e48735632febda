//! The targets over their first inputs, without a fuzzer.

use fuzz::corpus::corpus;
use fuzz::{Target, TARGETS};
use second::rules::{
    AddJudges, AlignmentSlip, BitRules, Blanks, CarrySlip, Checked, GuidOf, Keeps, Key, NameSlip, Offender,
    Open, OpenFrom, OpenTo, Row, Span, StartJudged, StartSlip, Unjudged, UsedIn, Which, WholeIn,
};
use second::{Rules, RULES};

/// A call, and what makes an implementation of it wrong.
type Wrong = (&'static str, fn(&mut Rules));

#[test]
fn every_call_of_the_header_has_a_target() {
    let header = testkit::host().join("../include/usigrambal.h");
    let text = std::fs::read_to_string(&header).expect("the header");
    let prototypes = text.lines().filter_map(|line| line.strip_prefix("uint32_t ")?.split_once('('));
    let mut calls: Vec<_> = prototypes.map(|(call, _)| call).collect();
    let mut targets: Vec<_> = TARGETS.iter().map(|target| target.call).collect();
    calls.sort();
    targets.sort();
    assert_eq!(targets, calls);
}

#[test]
fn library_and_second_implementation_agree() {
    for target in TARGETS {
        let inputs = corpus(target.call);
        assert!(inputs.len() >= 10, "{}: {} inputs", target.call, inputs.len());
        for (number, input) in inputs.iter().enumerate() {
            let outcome = target.compare(&RULES, input);
            assert_eq!(outcome, Ok(()), "{}: input {number}", target.call);
        }
    }
}

/// Cut short anywhere, an input is still one.
#[test]
fn every_input_is_one() {
    for target in TARGETS {
        let input = corpus(target.call).into_iter().min_by_key(Vec::len).expect("an input");
        for len in 0..input.len().min(40) {
            assert_eq!(target.compare(&RULES, &input[..len]), Ok(()), "{}: {len} bytes", target.call);
        }
    }
}

/// A wrong implementation of each call, in an accepted answer: the first inputs suffice to show it.
#[test]
fn each_target_shows_a_wrong_answer() {
    let wrong: &[Wrong] = &[
        ("usi_crc32", |r| r.crc.start = 0),
        ("usi_guid_read", |r| r.guid.reversed_groups = 2),
        ("usi_type_read", |r| r.guid.short_names_as_type = false),
        ("usi_guid_write", |r| r.guid.write_ten = b'a'),
        ("usi_fmap_find", |r| r.fmap.alignment = 4),
        ("usi_fmap_fault", |r| r.fmap.minor_max = 0),
        ("usi_fmap_area", |r| r.fmap.area_buffer_len = 36),
        ("usi_fmap_named", |r| r.fmap.name_len_max = 3),
        ("usi_fmap_carry", |r| r.fmap.carry_slip = Some(CarrySlip::OneByteLess)),
        ("usi_gpt_format", |r| r.gpt.format_tail_byte = 0xFF),
        ("usi_gpt_build", |r| r.gpt.strings.no_type = b"linux"),
        ("usi_gpt_read", |r| r.gpt.states = [2, 1, 3, 4]),
        ("usi_gpt_table", |r| r.gpt.table_of = Some(Which::Primary)),
        ("usi_gpt_free", |r| r.gpt.free_of = Some(Which::Backup)),
        ("usi_gpt_check", |r| r.gpt.attributes.first_slot = 0),
        ("usi_gpt_add", |r| r.gpt.add_answers_first = false),
        ("usi_gpt_delete", |r| r.gpt.delete_zeroes = 16),
        ("usi_gpt_resize", |r| r.gpt.resize_last_less = 0),
        ("usi_gpt_rename", |r| r.gpt.rename_units = 35),
        ("usi_gpt_repair", |r| r.gpt.repair_answers_found = false),
        ("usi_fmd_read", |r| r.fmd.name_len_max = 3),
        ("usi_fmd_records", |r| r.fmd.first_record = 1),
        ("usi_fmd_write", |r| r.fmap.image_name.at = 21),
    ];
    assert_eq!(
        TARGETS.iter().map(|t| t.call).collect::<Vec<_>>(),
        wrong.iter().map(|w| w.0).collect::<Vec<_>>()
    );
    for (target, (_, change)) in TARGETS.iter().zip(wrong) {
        assert!(shows(target, &changed(change)), "{}", target.call);
    }
}

/// A refusal that changes a buffer or a number for an answer shows too, as does one with another number.
#[test]
fn each_target_shows_a_wrong_refusal() {
    let mut changing = RULES;
    changing.refusals.zeroes = 1;
    changing.refusals.zeroes_answers = true;
    let mut renumbered = RULES;
    for row in [Row::WrongLength, Row::ImageLength, Row::NoSignature, Row::NoGoodMap] {
        renumbered.refusals.renumber(row, 99);
    }
    for target in TARGETS.iter().filter(|target| target.call != "usi_crc32") {
        for rules in [&changing, &renumbered] {
            assert!(shows(target, rules), "{}", target.call);
        }
    }
}

/// Each disk target is given disks of both block sizes, and others that are refused.
#[test]
fn each_disk_target_shows_a_wrong_block_size() {
    let wrong: &[fn(&mut Rules)] = &[
        |r| r.gpt.shapes[0].named_min = 513,
        |r| r.gpt.shapes[1].named_min = 4097,
        |r| r.gpt.shapes[1].n_min = 45,
        |r| r.gpt.shapes[1].n_min = 11,
        |r| r.refusals.renumber(Row::BlockSize, 99),
    ];
    for target in TARGETS.iter().filter(|target| target.call.starts_with("usi_gpt_")) {
        for (number, change) in wrong.iter().enumerate() {
            assert!(shows(target, &changed(change)), "{}: {number}", target.call);
        }
    }
}

/// Adds are given each alignment that is taken, where it matters, and others.
#[test]
fn the_target_of_adding_shows_a_wrong_alignment() {
    let wrong: &[fn(&mut Rules)] = &[
        |r| r.refusals.renumber(Row::Alignment, 99),
        |r| r.gpt.alignment.taken = &[(1, 1), (8, 8), (16, 16), (2048, 2048)],
        |r| r.gpt.alignment.taken = &[(1, 1), (8, 8), (2048, 8)],
        |r| r.gpt.alignment.judged_bits = 0xFFFF_FFFF,
        |r| r.gpt.alignment.slip = Some((8, AlignmentSlip::RoundedDown)),
        |r| r.gpt.alignment.slip = Some((8, AlignmentSlip::WholeRun)),
        |r| r.gpt.alignment.slip = Some((2048, AlignmentSlip::FromFirstUsable)),
        |r| r.gpt.alignment.slip = Some((2048, AlignmentSlip::NextMultiple)),
        |r| r.gpt.alignment.slip = Some((2048, AlignmentSlip::RoundedIn32Bits)),
        |r| r.gpt.alignment.slip = Some((2048, AlignmentSlip::OneMore)),
        |r| r.gpt.alignment.slip = Some((2048, AlignmentSlip::OneLess)),
    ];
    for (number, change) in wrong.iter().enumerate() {
        assert!(shows(target("usi_gpt_add"), &changed(change)), "{number}");
    }
}

/// Adds and renames are given names that a slot has, or nearly has, and the empty one.
#[test]
fn the_targets_of_adding_and_renaming_show_wrong_names() {
    let wrong: &[fn(&mut Rules)] = &[
        |r| r.refusals.renumber(Row::NameTaken, 99),
        |r| r.gpt.names.empty_repeats = false,
        |r| r.gpt.names.empty_by.len = 1,
        |r| r.gpt.names.compared.len = 71,
        |r| r.gpt.names.compared.len = 8,
        |r| r.gpt.names.slots.len = 127,
        |r| r.gpt.names.slip = Some(NameSlip::UpToZero),
        |r| r.gpt.names.slip = Some(NameSlip::WithoutCase),
        |r| r.gpt.names.slip = Some(NameSlip::LowBytes),
        |r| r.gpt.names.slip = Some(NameSlip::BeginsAnother),
        |r| r.gpt.names.slip = Some(NameSlip::SlotsBefore),
        |r| r.gpt.names.slip = Some(NameSlip::OfDoubles),
    ];
    for call in ["usi_gpt_add", "usi_gpt_rename"] {
        for (number, change) in wrong.iter().enumerate() {
            assert!(shows(target(call), &changed(change)), "{call}: {number}");
        }
    }
    let of_one: &[Wrong] = &[
        ("usi_gpt_add", |r| r.gpt.unused.stale_used_in = Some(UsedIn::NameInAdd)),
        ("usi_gpt_rename", |r| r.gpt.unused.stale_used_in = Some(UsedIn::NameInRename)),
        ("usi_gpt_rename", |r| r.gpt.names.own_counts = true),
        ("usi_gpt_rename", |r| r.gpt.names.slip = Some(NameSlip::OwnName)),
    ];
    for (number, (call, change)) in of_one.iter().enumerate() {
        assert!(shows(target(call), &changed(change)), "{call}: {number}");
    }
}

/// Adds and checks are given bits at the edges of both rules, by several numbers of each.
#[test]
fn the_targets_of_adding_and_checking_show_wrong_attribute_bits() {
    let wrong: &[fn(&mut BitRules)] = &[
        |bits| bits.present.first = 2,
        |bits| bits.present.first = 4,
        |bits| bits.present.last = 46,
        |bits| bits.present.last = 48,
        |bits| bits.earlier.first = 0,
        |bits| bits.earlier.first = 2,
        |bits| bits.earlier.first = 3,
        |bits| bits.earlier.last = 46,
        |bits| bits.earlier.last = 48,
        |bits| (bits.present, bits.earlier) = (bits.earlier, bits.present),
        |bits| bits.named_present = &[0, 2],
        |bits| bits.named_present = &[0, u64::MAX],
        |bits| bits.named_bits = 0xFFFF_FFFF,
        |bits| bits.offending = 2,
        |bits| bits.from_highest = true,
    ];
    for (number, change) in wrong.iter().enumerate() {
        let add = changed(|r| change(&mut r.gpt.attributes.in_add));
        assert!(shows(target("usi_gpt_add"), &add), "usi_gpt_add: {number}");
        let check = changed(|r| change(&mut r.gpt.attributes.in_check));
        assert!(shows(target("usi_gpt_check"), &check), "usi_gpt_check: {number}");
    }
    let of_one: &[Wrong] = &[
        ("usi_gpt_add", |r| r.refusals.renumber(Row::AttributeBits, 99)),
        ("usi_gpt_add", |r| r.gpt.attributes.add_judges = AddJudges::TableToo),
        ("usi_gpt_add", |r| r.gpt.attributes.add_judges = AddJudges::SlotToo),
        ("usi_gpt_check", |r| r.gpt.unused.stale_used_in = Some(UsedIn::Check)),
        ("usi_gpt_check", |r| r.gpt.attributes.answers = Offender::Last),
        ("usi_gpt_check", |r| r.gpt.attributes.answers = Offender::Count),
        ("usi_gpt_check", |r| r.gpt.attributes.checked = Checked::Backup),
        ("usi_gpt_check", |r| r.gpt.attributes.checked = Checked::Either),
        ("usi_gpt_check", |r| r.gpt.attributes.slots.len = 127),
        ("usi_gpt_check", |r| r.gpt.attributes.slots.at = 1),
        ("usi_gpt_check", |r| r.gpt.attributes.none_answers = None),
    ];
    for (number, (call, change)) in of_one.iter().enumerate() {
        assert!(shows(target(call), &changed(change)), "{call}: {number}");
    }
}

/// The target of building is given strings on both sides of each rule.
#[test]
fn the_target_of_building_shows_wrong_strings() {
    let wrong: &[fn(&mut Rules)] = &[
        |r| r.refusals.renumber(Row::StringForm, 99),
        |r| r.refusals.renumber(Row::NotWholeBlocks, 99),
        |r| r.refusals.renumber(Row::StartTaken, 99),
        |r| r.refusals.renumber(Row::ZeroDiskGuid, 99),
        |r| r.refusals.renumber(Row::ZeroSize, 99),
        |r| r.refusals.renumber(Row::Alignment, 99),
        |r| r.refusals.renumber(Row::ZeroType, 99),
        |r| r.refusals.renumber(Row::UniqueTaken, 99),
        |r| r.refusals.renumber(Row::NameTaken, 99),
        |r| r.refusals.renumber(Row::NoSlot, 99),
        |r| r.refusals.renumber(Row::NoRoom, 99),
        |r| r.gpt.strings.text_max = 8191,
        |r| r.gpt.strings.text_max = 8193,
        |r| r.gpt.strings.partitions_min = 0,
        |r| r.gpt.strings.partitions_max = 128,
        |r| r.gpt.strings.slots = 127,
        |r| r.gpt.strings.slots = 129,
        |r| r.gpt.strings.keys_in_any_case = true,
        |r| r.gpt.strings.unknown_fields_taken = true,
        |r| r.gpt.strings.disk_key_as_field = true,
        |r| r.gpt.strings.required = &[Key::Name, Key::Size],
        |r| r.gpt.strings.may_repeat = Some(Key::Name),
        |r| r.gpt.strings.may_repeat = Some(Key::Size),
        |r| r.gpt.strings.demanded_order = Some((Key::Name, Key::Size)),
        |r| r.gpt.strings.demanded_order = Some((Key::Size, Key::Uuid)),
        |r| r.gpt.strings.short_names_as = &[],
        |r| r.gpt.strings.bad_type_is_no_type = true,
        |r| r.gpt.strings.bootable_may_have_value = true,
        |r| r.gpt.strings.attributes = [0, 2],
        |r| r.gpt.strings.zero_guid_bad = Some(GuidOf::Disk),
        |r| r.gpt.strings.zero_guid_bad = Some(GuidOf::Unique),
        |r| r.gpt.strings.zero_guid_bad = Some(GuidOf::Type),
        |r| r.gpt.strings.disk_guid_taken = true,
        |r| r.gpt.strings.blanks = Blanks::AtEnd(b"\n"),
        |r| r.gpt.strings.blanks = Blanks::Anywhere(b" "),
        |r| r.gpt.strings.last_signs_max = 0,
        |r| r.gpt.strings.last_signs_max = 2,
        |r| r.gpt.strings.empty_fields_taken = true,
        |r| r.gpt.strings.name_min = 0,
        |r| r.gpt.strings.name_max = 35,
        |r| r.gpt.strings.name_max = 37,
        |r| r.gpt.strings.name_byte_min = 0x20,
        |r| r.gpt.strings.name_byte_max = 0x7F,
        |r| r.gpt.strings.name_without = b"=",
        |r| r.gpt.strings.numbers.leading_zeros_max = 0,
        |r| r.gpt.strings.numbers.leading_zeros_max = 4000,
        |r| r.gpt.strings.numbers.suffix_in_any_case = true,
        |r| {
            r.gpt.strings.numbers.suffixes =
                &[(b"KiB", 1 << 10), (b"MiB", 1 << 20), (b"GiB", 1 << 30), (b"TiB", 1 << 40)];
        },
        |r| r.gpt.strings.numbers.suffixes_max = 2,
        |r| r.gpt.strings.numbers.digits_min = 0,
        |r| r.gpt.strings.numbers.max -= 1,
        |r| r.gpt.strings.numbers.max += 1,
        |r| r.gpt.strings.numbers.mask = u128::from(u64::MAX),
        |r| r.gpt.strings.numbers.zero_by_value = false,
        |r| r.gpt.strings.whole_text_judged = false,
        |r| r.gpt.strings.open = Open::Never,
        |r| r.gpt.strings.open = Open::Any,
        |r| r.gpt.strings.open_from = OpenFrom::AnyBlock,
        |r| r.gpt.strings.open_from = OpenFrom::LongestRun,
        |r| r.gpt.strings.open_to = OpenTo::LastUsable,
        |r| r.gpt.strings.open_to = OpenTo::OneLess,
        |r| r.gpt.strings.start_slip = Some(StartSlip::RoundedUp),
        |r| r.gpt.strings.start_slip = Some(StartSlip::ZeroOmitted),
        |r| r.gpt.strings.start_judged = StartJudged::Usable,
        |r| r.gpt.strings.start_judged = StartJudged::Untaken,
        |r| r.gpt.strings.start_judged = StartJudged::WholeRange,
        |r| r.gpt.strings.start_whole = false,
        |r| r.gpt.strings.size_whole = false,
        |r| r.gpt.strings.whole_of = Some(512),
        |r| r.gpt.strings.alignment_with_start_judged = false,
        |r| r.gpt.strings.keeps = Some(Keeps::Block0),
        |r| r.gpt.strings.keeps = Some(Keeps::HeaderTails),
        |r| r.gpt.alignment.slip = Some((8, AlignmentSlip::RoundedDown)),
        |r| r.gpt.alignment.slip = Some((2048, AlignmentSlip::NextMultiple)),
    ];
    for (number, change) in wrong.iter().enumerate() {
        assert!(shows(target("usi_gpt_build"), &changed(change)), "{number}");
    }
}

/// Each disk target but formatting and building is given disks with attributes that no add takes.
#[test]
fn each_disk_target_shows_that_any_attributes_are_read() {
    let rules = changed(|r| r.gpt.also_judged = Some(Unjudged::AttributeBits));
    for target in on_tables() {
        assert!(shows(target, &rules), "{}", target.call);
    }
}

/// Each of them is given disks that have a name twice.
#[test]
fn each_disk_target_shows_that_a_name_twice_is_read() {
    let rules = changed(|r| r.gpt.names.doubles_good = false);
    for target in on_tables() {
        assert!(shows(target, &rules), "{}", target.call);
    }
}

/// Each of them is given stale entries: unused ones that are not all zero.
#[test]
fn each_disk_target_shows_stale_entries_taken_for_used_ones() {
    let rules = changed(|r| r.gpt.unused.by = Span { at: 0, len: 128 });
    for target in on_tables() {
        assert!(shows(target, &rules), "{}", target.call);
    }
}

/// What the calls do with the bytes of stale entries shows too.
#[test]
fn disk_targets_show_wrong_bytes_of_stale_entries() {
    let wrong: &[Wrong] = &[
        ("usi_gpt_read", |r| r.gpt.unused.stale_zero_in = Some(WholeIn::Comparison)),
        ("usi_gpt_repair", |r| r.gpt.unused.stale_zero_in = Some(WholeIn::Repair)),
        ("usi_gpt_free", |r| r.gpt.unused.stale_used_in = Some(UsedIn::FreeCounts)),
        ("usi_gpt_add", |r| r.gpt.unused.add_keeps = Span { at: 127, len: 1 }),
        ("usi_gpt_delete", |r| r.gpt.unused.stale_used_in = Some(UsedIn::Delete)),
        ("usi_gpt_resize", |r| r.gpt.unused.stale_used_in = Some(UsedIn::Resize)),
        ("usi_gpt_rename", |r| r.gpt.unused.stale_used_in = Some(UsedIn::Rename)),
    ];
    for (call, change) in wrong {
        assert!(shows(target(call), &changed(change)), "{call}");
    }
}

/// The targets of the disk calls that go by what head and tail hold: all but formatting and building.
fn on_tables() -> impl Iterator<Item = &'static Target> {
    let disk_calls = TARGETS.iter().filter(|target| target.call.starts_with("usi_gpt_"));
    disk_calls.filter(|target| !["usi_gpt_format", "usi_gpt_build"].contains(&target.call))
}

fn target(call: &str) -> &'static Target {
    TARGETS.iter().find(|target| target.call == call).expect("a target")
}

fn changed(change: impl Fn(&mut Rules)) -> Rules {
    let mut rules = RULES;
    change(&mut rules);
    rules
}

/// Whether one of the target's first inputs shows a difference under these rules.
fn shows(target: &Target, rules: &Rules) -> bool {
    corpus(target.call).iter().any(|input| target.compare(rules, input).is_err())
}
