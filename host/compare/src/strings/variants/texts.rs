//! What a layout string says: signs, keys, numbers, names, GUIDs.

use crate::topic::{variant, Variant};
use second::rules::{Blanks, GuidOf, Key, StringNumbers, STRINGS};

type Suffixes = &'static [(&'static [u8], u128)];

const K: (&[u8], u128) = (b"KiB", 1 << 10);
const M: (&[u8], u128) = (b"MiB", 1 << 20);
const G: (&[u8], u128) = (b"GiB", 1 << 30);

/// Suffixes in place of KiB, MiB and GiB.
const SUFFIXES: [(&str, Suffixes); 11] = [
    ("no-KiB", &[M, G]),
    ("no-MiB", &[K, G]),
    ("no-GiB", &[K, M]),
    ("KiB-is-1000", &[(b"KiB", 1000), M, G]),
    ("MiB-is-1000000", &[K, (b"MiB", 1_000_000), G]),
    ("GiB-is-MiB", &[K, M, (b"GiB", 1 << 20)]),
    ("K-taken", &[K, M, G, (b"K", 1 << 10)]),
    ("Mib-taken", &[K, M, G, (b"Mib", 1 << 20)]),
    ("TiB-taken", &[K, M, G, (b"TiB", 1 << 40)]),
    ("B-taken", &[K, M, G, (b"B", 1)]),
    ("KB-taken", &[K, M, G, (b"KB", 1000)]),
];

/// Types that document 004 has and 01 does not.
const OTHER_TYPES: [(&[u8], &[u8]); 3] = [
    (b"mbr", b"024DEE41-33E7-11D3-9D69-0008C781F39F"),
    (b"raid", b"A19D880F-05FC-4D3B-A006-743F0F84911E"),
    (b"lvm", b"E6D6D379-F507-44C2-A23C-238F2A3DF928"),
];

const KEYS: [Key; 6] = [Key::Name, Key::Size, Key::Uuid, Key::Start, Key::Type, Key::Bootable];
const ORDERS: [(Key, Key); 5] = [
    (Key::Name, Key::Size),
    (Key::Size, Key::Name),
    (Key::Size, Key::Uuid),
    (Key::Start, Key::Size),
    (Key::Type, Key::Bootable),
];

/// Attributes without the mark and with it, instead of none and bit 2.
const ATTRIBUTES: [[u64; 2]; 7] = [[0, 0], [0, 1], [0, 2], [0, 8], [4, 4], [4, 0], [0, 1 << 61]];

pub fn variants() -> Vec<Variant> {
    let groups = [whole(), keys(), types(), numbers(), blanks_and_signs(), names(), zero_guids()];
    groups.into_iter().flatten().collect()
}

fn whole() -> Vec<Variant> {
    vec![
        variant("text-of-8191", "b1", |r| r.gpt.strings.text_max = 8191),
        variant("text-of-8193", "b1", |r| r.gpt.strings.text_max = 8193),
        variant("text-of-any-length", "b1", |r| r.gpt.strings.text_max = usize::MAX),
        variant("disk-key-uuid-disk", "b1", |r| r.gpt.strings.disk_key = b"uuid-disk"),
        variant("disk-key-uuid", "b1", |r| r.gpt.strings.disk_key = b"uuid"),
        variant("disk-guid-in-any-place", "b1", |r| r.gpt.strings.disk_guid_first = false),
        variant("partitions-by-LF", "b1", |r| r.gpt.strings.partition_sign = b'\n'),
        variant("fields-by-colon", "b1", |r| r.gpt.strings.field_sign = b':'),
        variant("no-partition-taken", "b1", |r| r.gpt.strings.partitions_min = 0),
        variant("two-partitions-demanded", "b1", |r| r.gpt.strings.partitions_min = 2),
        variant("disk-guid-once-more", "b1", |r| r.gpt.strings.disk_key_as_field = true),
    ]
}

fn keys() -> Vec<Variant> {
    let required = |without: Key| -> &'static [Key] {
        STRINGS.required.iter().copied().filter(|key| *key != without).collect::<Vec<_>>().leak()
    };
    let optional = STRINGS
        .required
        .iter()
        .map(|key| variant(format!("{key:?}-optional"), "b2", |r| r.gpt.strings.required = required(*key)));
    let others = KEYS.iter().filter(|key| !STRINGS.required.contains(key));
    let demanded = others.map(|key| {
        let required = [STRINGS.required, &[*key]].concat();
        variant(format!("{key:?}-demanded"), "b2", |r| r.gpt.strings.required = required.leak())
    });
    let repeats = KEYS
        .iter()
        .map(|key| variant(format!("{key:?}-twice"), "b4", |r| r.gpt.strings.may_repeat = Some(*key)));
    let words = KEYS.iter().enumerate().map(|(place, key)| {
        variant(format!("{key:?}-in-another-word"), "b2", |r| r.gpt.strings.keys[place].1 = b"flags")
    });
    let orders = ORDERS.map(|order| {
        let name = format!("{:?}-before-{:?}", order.0, order.1);
        variant(name, "b4", |r| r.gpt.strings.demanded_order = Some(order))
    });
    let attributes = ATTRIBUTES.map(|attributes| {
        variant(format!("attributes-{attributes:X?}"), "b2", |r| r.gpt.strings.attributes = attributes)
    });
    let rest = [
        variant("keys-in-any-case", "b2", |r| r.gpt.strings.keys_in_any_case = true),
        variant("bootable-with-a-value", "b2", |r| r.gpt.strings.bootable_may_have_value = true),
        variant("unknown-fields-taken", "b2", |r| r.gpt.strings.unknown_fields_taken = true),
    ];
    optional.chain(demanded).chain(repeats).chain(words).chain(orders).chain(attributes).chain(rest).collect()
}

fn types() -> Vec<Variant> {
    let other = OTHER_TYPES.map(|other| {
        let name = format!("type-{}-taken", other.0.escape_ascii());
        variant(name, "b2", |r| r.gpt.strings.other_types = vec![other].leak())
    });
    let rest = [
        variant("no-type-is-linux", "b2", |r| r.gpt.strings.no_type = b"linux"),
        variant("no-type-is-system", "b2", |r| r.gpt.strings.no_type = b"system"),
        variant("bad-type-is-data", "b2", |r| r.gpt.strings.bad_type_is_no_type = true),
        variant("type-by-name-refused", "b2", |r| r.gpt.strings.short_names_as = &[]),
        variant("uuid-by-name", "b6", |r| r.gpt.strings.short_names_as = &[GuidOf::Type, GuidOf::Unique]),
        variant("disk-guid-by-name", "b6", |r| r.gpt.strings.short_names_as = &[GuidOf::Type, GuidOf::Disk]),
        variant("type-by-guid-refused", "b2", |r| {
            r.gpt.strings.guid_texts_as = &[GuidOf::Disk, GuidOf::Unique];
        }),
    ];
    other.into_iter().chain(rest).collect()
}

fn numbers() -> Vec<Variant> {
    let of = |name: &str, rule, change: fn(&mut StringNumbers)| {
        variant(name.to_string(), rule, |r| change(&mut r.gpt.strings.numbers))
    };
    let suffixes =
        SUFFIXES.map(|(name, suffixes)| variant(name, "b3", |r| r.gpt.strings.numbers.suffixes = suffixes));
    let rest = [
        of("no-suffix", "b3", |n| n.suffixes = &[]),
        of("suffix-in-any-case", "b3", |n| n.suffix_in_any_case = true),
        of("two-suffixes", "b3", |n| n.suffixes_max = 2),
        of("hex-taken", "b3", |n| n.bases = &[(b"0x", 16), (b"", 10)]),
        of("octal-by-a-zero", "b3", |n| n.bases = &[(b"0", 8), (b"", 10)]),
        of("plus-taken", "b3", |n| n.bases = &[(b"+", 10), (b"", 10)]),
        of("empty-number-is-0", "b3", |n| n.digits_min = 0),
        of("two-digits-demanded", "b3", |n| n.digits_min = 2),
        of("leading-zero-refused", "b3", |n| n.leading_zeros_max = 0),
        of("20-leading-zeros-refused", "b3", |n| n.leading_zeros_max = 19),
        of("4000-leading-zeros-refused", "b3", |n| n.leading_zeros_max = 4000),
        of("2^64-1-refused", "b5", |n| n.max -= 1),
        of("2^64-taken", "b5", |n| n.max += 1),
        of("2^63-refused", "b5", |n| n.max = (1 << 63) - 1),
        of("numbers-wrap-at-2^32", "b5", |n| n.mask = 0xFFFF_FFFF),
        of("numbers-wrap-at-2^64", "b5", |n| n.mask = u128::from(u64::MAX)),
        of("product-unjudged", "b5", |n| n.multiplied_judged = false),
        of("size-0-by-its-digit-alone", "b7", |n| n.zero_by_value = false),
    ];
    suffixes.into_iter().chain(rest).collect()
}

fn blanks_and_signs() -> Vec<Variant> {
    let blanks = [
        Blanks::AtEnd(b"\n"),
        Blanks::AtEnd(b" \t\r\n"),
        Blanks::BehindSigns(b" "),
        Blanks::BehindSigns(b"\n"),
        Blanks::Anywhere(b" "),
        Blanks::Anywhere(b"\t"),
        Blanks::Anywhere(b"\r"),
        Blanks::Anywhere(b"\n"),
        Blanks::Anywhere(b"\0"),
    ];
    let blanks =
        blanks.map(|blanks| variant(format!("blanks-{blanks:?}"), "b4", |r| r.gpt.strings.blanks = blanks));
    let rest = [
        variant("no-last-semicolon", "b4", |r| r.gpt.strings.last_signs_max = 0),
        variant("two-last-semicolons", "b4", |r| r.gpt.strings.last_signs_max = 2),
        variant("last-semicolon-demanded", "b4", |r| r.gpt.strings.last_sign_demanded = true),
        variant("empty-partitions-taken", "b4", |r| r.gpt.strings.empty_partitions_taken = true),
        variant("empty-fields-taken", "b4", |r| r.gpt.strings.empty_fields_taken = true),
    ];
    blanks.into_iter().chain(rest).collect()
}

fn names() -> Vec<Variant> {
    vec![
        variant("empty-name-taken", "b5", |r| r.gpt.strings.name_min = 0),
        variant("name-of-1-refused", "b5", |r| r.gpt.strings.name_min = 2),
        variant("name-of-36-refused", "b5", |r| r.gpt.strings.name_max = 35),
        variant("name-of-37-taken", "b5", |r| r.gpt.strings.name_max = 37),
        variant("name-with-20", "b5", |r| r.gpt.strings.name_byte_min = 0x20),
        variant("name-without-21", "b5", |r| r.gpt.strings.name_byte_min = 0x22),
        variant("name-without-7E", "b5", |r| r.gpt.strings.name_byte_max = 0x7D),
        variant("name-with-7F", "b5", |r| r.gpt.strings.name_byte_max = 0x7F),
        variant("name-with-FF", "b5", |r| r.gpt.strings.name_byte_max = 0xFF),
        variant("name-without-=", "b5", |r| r.gpt.strings.name_without = b"="),
        variant("name-without-quotes", "b5", |r| r.gpt.strings.name_without = b"\"'"),
        variant("two-bytes-of-a-name-a-unit", "b5", |r| r.gpt.strings.name_bytes_packed = true),
    ]
}

fn zero_guids() -> Vec<Variant> {
    let bad =
        |of| variant(format!("{of:?}-of-zeros-is-70"), "b6", |r| r.gpt.strings.zero_guid_bad = Some(of));
    [GuidOf::Disk, GuidOf::Unique, GuidOf::Type].map(bad).into_iter().collect()
}
