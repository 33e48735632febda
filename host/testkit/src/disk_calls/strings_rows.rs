//! What refuses a layout string, and in which order; sizes of 0, and the most that a string can have.

use super::aligned::ZERO;
use super::strings::{answer, built, places, string, N};
use super::{unique, Calls, DISK_GUID};
use crate::disk::{Disk, Shape, SHAPES};
use crate::strings::{lengthened, many, SHORT_NAMES, TEXT_MAX};

/// b4, b5, b6: breaches anywhere, each of which alone is 70.
pub fn a_breach_anywhere_is_70(calls: &Calls) {
    let good = string(&["size=4KiB", "size=8KiB"]);
    let shape = Shape::of(512);
    assert_eq!(answer(calls, shape, &good), Ok(()));
    assert_eq!(answer(calls, shape, &format!("{good};")), Ok(()));
    for end in [";;", ";\n", "\n", " ", ",", ";,", ";name=c", "\0", ";uuid_disk=", "="] {
        assert_eq!(answer(calls, shape, &format!("{good}{end}")), Err(70), "{end:?} at the end");
    }
    for at in 0..=good.len() {
        for blank in [' ', '\t', '\r', '\n'] {
            let mut text = good.clone();
            text.insert(at, blank);
            assert_eq!(answer(calls, shape, &text), Err(70), "{text}");
        }
    }
    let changes = [
        ("uuid_disk=", "uuid_disk"),
        ("uuid_disk=", "uuid-disk="),
        ("uuid_disk=", "UUID_DISK="),
        ("uuid_disk=", "x;uuid_disk="),
        ("uuid_disk=", "uuid_disk=data,"),
        ("name=p1", "name="),
        ("name=p1", "name"),
        ("name=p1", "Name=p1"),
        ("name=p1", "label=p1"),
        ("name=p1", "name=p\u{7F}"),
        ("name=p1", "name=ö"),
        ("name=p1", "name=p1,bootable=1"),
        ("name=p1", "name=p1,bootable="),
        ("name=p1", "name=p1,Bootable"),
        ("name=p1", "name=p1,type="),
        ("name=p1", "name=p1,type=raid"),
        ("name=p1", "name=p1,type=DATA"),
        ("name=p1", "name=p1,start="),
        ("name=p1", "name=p1,start=-1"),
        ("size=4KiB", "size=4K"),
        ("size=4KiB", "size=4KIB"),
        ("size=4KiB", "size=4kiB"),
        ("size=4KiB", "size=4Kib"),
        ("size=4KiB", "size=KiB"),
        ("size=4KiB", "size="),
        ("size=4KiB", "size=0x1000"),
        ("size=4KiB", "size=4 KiB"),
        ("size=4KiB", "size=18446744073709551616"),
        ("size=4KiB", "size=18014398509481984KiB"),
        ("size=4KiB", "size=17592186044416MiB"),
        ("size=4KiB", "size=17179869184GiB"),
        (";name=p2", ";;name=p2"),
        (";name=p2", ",name=p2"),
        (";name=p2", ";uuid_disk=6E0B6FAB-1C46-4B6B-8F25-000000000001,name=p2"),
    ];
    for (from, to) in changes {
        let text = good.replacen(from, to, 1);
        assert_ne!(text, good);
        assert_eq!(answer(calls, shape, &text), Err(70), "{text}");
    }
    for text in ["", ";", "uuid_disk=", &format!("uuid_disk={DISK_GUID}"), &format!("uuid_disk={DISK_GUID};")]
    {
        assert_eq!(answer(calls, shape, text), Err(70), "{text}");
    }
    // Each GUID with each byte in another way.
    for guid in [DISK_GUID, &unique(1)[..]] {
        for at in 0..guid.len() {
            let text = good.replacen(guid, &format!("{}g{}", &guid[..at], &guid[at + 1..]), 1);
            assert_eq!(answer(calls, shape, &text), Err(70), "{text}");
        }
        for other in [&guid[1..], &format!("{guid}0"), &format!("{{{guid}}}"), "linux"] {
            assert_eq!(answer(calls, shape, &good.replacen(guid, other, 1)), Err(70), "{other}");
        }
    }
}

/// b5: 1 to 36 bytes, 21 to 7E hex, a = among them; a1: no name twice.
pub fn names_of_a_string(calls: &Calls) {
    let named = |name: &str| format!("uuid_disk={DISK_GUID};name={name},size=4KiB,uuid={}", unique(1));
    for shape in SHAPES {
        for (name, expected) in [
            ("a".repeat(36), Ok(())),
            ("a".repeat(37), Err(70)),
            ("a=b".into(), Ok(())),
            ("=".into(), Ok(())),
        ] {
            assert_eq!(answer(calls, shape, &named(&name)), expected, "{name}");
        }
        for byte in 0..=0x7F_u8 {
            let name = format!("p{}q", char::from(byte));
            let legal = (0x21..=0x7E).contains(&byte) && !b",;".contains(&byte);
            let found = built(calls, shape, N, 1, &named(&name)).map(|disk| calls.row_of(&disk, 1).name);
            assert_eq!(found, if legal { Ok(name) } else { Err(70) }, "byte {byte:02X}");
        }
        let twice = string(&["size=4KiB", "size=4KiB"]).replace("name=p2", "name=p1");
        assert_eq!(answer(calls, shape, &twice), Err(26));
        assert_eq!(answer(calls, shape, &twice.replacen("name=p1", "name=P1", 1)), Ok(()));
    }
}

/// b7, b10: the numbers in their order; what comes before holds before what comes behind, in one partition and in an
/// earlier one.
pub fn rows_of_a_string_in_their_order(calls: &Calls) {
    for shape in SHAPES {
        let block = shape.block;
        let whole = format!("size={block}");
        let faults = [
            (71, format!("size={}", block + 1)),
            (71, format!("start={},{whole}", shape.first_usable * block + 1)),
            (72, format!("start=0,{whole}")),
            (72, format!("start={},{whole}", (shape.first_usable - 1) * block)),
            (72, format!("start={},{whole}", (N - shape.first_usable + 1) * block)),
            (72, format!("start={},{whole}", shape.first_usable * block)),
            (72, format!("start={},size=0", 18_446_744_073_709_551_615 / block * block)),
            (20, "size=0".into()),
            (20, format!("size=000KiB,start={}", 100 * block)),
            (21, format!("{whole},type={ZERO}")),
            (25, format!("size={}", N * block)),
            (25, format!("size={},start={}", N * block, 100 * block)),
            (25, format!("size={},start={}", 3 * block, (N - shape.first_usable - 1) * block)),
        ];
        let first = format!("start={},{whole}", shape.first_usable * block);
        for (number, fault) in &faults {
            let text = string(&[&first, fault, &whole]);
            assert_eq!(answer(calls, shape, &text), Err(*number), "{text}");
            // An earlier partition, then the call's own arguments and the whole text.
            for (earlier, other) in &faults {
                let text = string(&[&first, other, fault, &whole]);
                assert_eq!(answer(calls, shape, &text), Err(*earlier), "{text}");
            }
            whole_call_first(calls, shape, &text);
        }
        in_one_partition(calls, shape);
    }
}

/// 6, 1, 2, 70 and 3 come before all that partitions have.
fn whole_call_first(calls: &Calls, shape: Shape, text: &str) {
    let zero = text.replacen(DISK_GUID, ZERO, 1);
    let good = shape.filled(N, 7);
    let long = Disk { head: vec![7; shape.head_len + 1], ..good.clone() };
    let faults = [
        (3, good.clone(), zero.clone()),
        (70, good.clone(), format!("{zero};;")),
        (2, Disk { n: shape.least_blocks() - 1, ..good.clone() }, format!("{zero};;")),
        (1, Disk { n: 0, ..long.clone() }, format!("{zero};;")),
        (6, Disk { n: 0, block: 1024, ..long }, format!("{zero};;")),
    ];
    for (number, mut disk, text) in faults {
        let before = disk.clone();
        assert_eq!((calls.build)(&mut disk, 3, text.as_bytes()), Err(number), "{text}");
        assert!(disk == before);
    }
}

/// Faults of one partition, from the last row to the first one, each put before those that are there.
fn in_one_partition(calls: &Calls, shape: Shape) {
    let block = shape.block;
    let fields = |name: &str, uuid: &str, rest: String| format!("name={name},uuid={uuid},{rest}");
    let (one, other) = (unique(1), unique(2));
    let large = N * block;
    let partitions = [
        (25, 1, fields("b", &other, format!("size={large}"))),
        (26, 1, fields("a", &other, format!("size={large}"))),
        (22, 1, fields("a", &one, format!("size={large}"))),
        (22, 1, fields("a", ZERO, format!("size={large}"))),
        (21, 1, fields("a", ZERO, format!("size={large},type={ZERO}"))),
        (20, 1, fields("a", ZERO, format!("size=0,type={ZERO}"))),
        (72, 1, fields("a", ZERO, format!("size=0,type={ZERO},start=0"))),
        (71, 1, fields("a", ZERO, format!("size=0,type={ZERO},start=1"))),
        // Of another alignment the first partition is told, by its own rows before 27.
        (27, 3, fields("b", &other, format!("size={block}"))),
    ];
    let first = fields("a", &one, format!("size={block}"));
    let last = fields("c", &unique(3), format!("size={block}"));
    for (number, alignment, partition) in &partitions {
        let text = format!("uuid_disk={DISK_GUID};{first};{partition};{last}");
        assert_eq!(built(calls, shape, N, *alignment, &text).map(drop), Err(*number), "{text}");
    }
    let alone = [
        (71, format!("size={}", block - 1)),
        (72, format!("size={block},start=0")),
        (27, format!("size={block},type={ZERO}")),
        (27, format!("size={block},start={}", 100 * block)),
        (27, "size=0".into()),
    ];
    for (number, partition) in alone {
        assert_eq!(built(calls, shape, N, 3, &string(&[&partition])).map(drop), Err(number), "{partition}");
    }
    let not_last = string(&["size=0", &format!("size={block}")]);
    assert_eq!(built(calls, shape, N, 3, &not_last).map(drop), Err(20));
}

/// b7, e3: to the end of that run, not of a longer one, and not of the disk.
pub fn size_0_reaches_to_the_end_of_its_run(calls: &Calls) {
    for shape in SHAPES {
        let (b, first, last) = (shape.block, shape.first_usable, N - shape.first_usable);
        let at = |block: u64, size: u64| format!("start={},size={}", block * b, size * b);
        let places = |n, alignment, parts: &[&str]| places(calls, shape, n, alignment, &string(parts));
        for zero in ["0", "000", "0KiB", "00GiB"] {
            let zero = format!("size={zero}");
            assert_eq!(places(N, 1, &[&at(100, 1), &zero]), Ok(vec![(100, 100), (first, 99)]));
        }
        // From a start on, before another partition, at the disk's end, and where none is left.
        let both = |start: u64| places(N, 1, &[&at(100, 5), &at(start, 0)]);
        assert_eq!(both(50), Ok(vec![(100, 104), (50, 99)]));
        assert_eq!(both(99), Ok(vec![(100, 104), (99, 99)]));
        assert_eq!(both(105), Ok(vec![(100, 104), (105, last)]));
        assert_eq!(both(last), Ok(vec![(100, 104), (last, last)]));
        assert_eq!([100, 104, last + 1, first - 1].map(both), [Err(72), Err(72), Err(72), Err(72)]);
        let all = at(first, last - first + 1);
        assert_eq!(places(N, 1, &[&all, "size=0"]), Err(25));
        assert_eq!(places(N, 1, &["size=0"]), Ok(vec![(first, last)]));
        // Runs that hold no multiple are passed over.
        let multiple = first.next_multiple_of(8);
        assert_eq!(places(multiple - 1 + first, 8, &["size=0"]), Err(25));
        assert_eq!(places(multiple + first, 8, &["size=0"]), Ok(vec![(multiple, multiple)]));
        let odd = [&at(multiple + 1, 6)[..], &at(multiple, 1), &at(120, 1), "size=0"];
        let expected =
            vec![(multiple + 1, multiple + 6), (multiple, multiple), (120, 120), (multiple + 8, 119)];
        assert_eq!(places(N, 8, &odd), Ok(expected));
    }
}

/// b8, e2: with a start exactly there, aligned or not; without one as in adding, among the earlier ones alone.
pub fn starts_of_a_string(calls: &Calls) {
    for shape in SHAPES {
        let (b, first) = (shape.block, shape.first_usable);
        let at = |block: u64, size: u64| format!("start={},size={}", block * b, size * b);
        let size = |blocks: u64| format!("size={}", blocks * b);
        let places = |alignment, parts: &[&str]| places(calls, shape, 10_000, alignment, &string(parts));
        let parts = [&at(first, 1)[..], &at(4099, 7), &size(3), &size(2051), &size(2051)];
        let expected = vec![(first, first), (4099, 4105), (2048, 2050), (6144, 8194)];
        assert_eq!([places(2048, &parts[..4]), places(2048, &parts)], [Ok(expected), Err(25)]);
        // An earlier one may take what a later one is given.
        let taken = |start: u64| places(1, &[&size(2), &at(start, 1)]);
        assert_eq!([first, first + 1].map(taken), [Err(72), Err(72)]);
        assert_eq!(taken(first + 2), Ok(vec![(first, first + 1), (first + 2, first + 2)]));
        // 72 for the start block, 25 for those behind it.
        let before = |size: u64| places(1, &[&at(200, 1), &at(190, size)]);
        assert_eq!(before(10), Ok(vec![(200, 200), (190, 199)]));
        assert_eq!(before(11), Err(25));
    }
}

/// b5, l5: numbers below 2^64, once multiplied; leading zeros are free; 71 goes by the block size.
pub fn numbers_of_a_string(calls: &Calls) {
    let zeros = "0".repeat(3000);
    for shape in SHAPES {
        let of = |number: &str| answer(calls, shape, &string(&[&format!("size={number}")]));
        for (number, expected) in [
            ("4096", Ok(())),
            ("4KiB", Ok(())),
            ("0000004KiB", Ok(())),
            (&format!("{zeros}4096"), Ok(())),
            (&format!("{zeros}4KiB"), Ok(())),
            ("512", if shape.block == 512 { Ok(()) } else { Err(71) }),
            ("4095", Err(71)),
            ("1", Err(71)),
            ("1GiB", Err(25)),
            ("18446744073709547520", Err(25)),
            ("18014398509481980KiB", Err(25)),
            ("17179869183GiB", Err(25)),
            ("18446744073709551615", Err(71)),
            ("18446744073709551616", Err(70)),
            ("18014398509481984KiB", Err(70)),
            (&format!("1{zeros}"), Err(70)),
        ] {
            assert_eq!(of(number), expected, "{shape:?}, {number}");
        }
    }
}

/// b1, b10: 128 partitions, and the 129th is 24 before its 25; 8,192 bytes, and one more is 70.
pub fn the_most_that_a_string_can_have(calls: &Calls) {
    for shape in SHAPES {
        let n = shape.least_blocks() + 127;
        let full = many(128, shape.block);
        let disk = built(calls, shape, n, 1, &full).expect("room");
        let rows = calls.table(&disk);
        assert!(rows.iter().map(|row| (row.slot, row.first)).eq((1..=128).zip(shape.first_usable..)));
        assert_eq!((calls.free)(&disk), Ok((0, 0)));
        for count in [129, 130] {
            let more = many(count, shape.block);
            let answers = [n, n + 5].map(|n| built(calls, shape, n, 1, &more).map(drop));
            assert_eq!(answers, [Err(24), Err(24)]);
        }
        assert_eq!(built(calls, shape, n - 1, 1, &full).map(drop), Err(25));
        for text in [string(&["size=4096"]), full] {
            let most = lengthened(&text, TEXT_MAX);
            assert_eq!(built(calls, shape, n + 5, 1, &most).map(drop), Ok(()));
            assert_eq!(built(calls, shape, n + 5, 1, &format!("{most};")).map(drop), Err(70));
            assert_eq!(built(calls, shape, n + 5, 1, &lengthened(&text, TEXT_MAX + 1)).map(drop), Err(70));
        }
    }
}

/// b2, b6: GUIDs in either case; a type by its short name, in lower case alone; R11: a disk GUID is no slot's.
pub fn types_and_guids_of_a_string(calls: &Calls) {
    for shape in SHAPES {
        let typed = |kind: &str| {
            let text = string(&[&format!("size=4096,type={kind}")]);
            built(calls, shape, N, 1, &text).map(|disk| calls.row_of(&disk, 1).kind)
        };
        for (name, guid) in SHORT_NAMES {
            for kind in [name, guid, &guid.to_ascii_lowercase()] {
                assert_eq!(typed(kind), Ok(guid.to_string()), "{kind}");
            }
            for kind in [&name.to_ascii_uppercase(), &name[1..], &format!("{name}x"), &guid[1..]] {
                assert_eq!(typed(kind), Err(70), "{kind}");
            }
        }
        let same = string(&["size=4096"]).replacen(&unique(1), DISK_GUID, 1);
        assert_eq!(answer(calls, shape, &same), Ok(()));
        let lower =
            string(&["size=4096", "size=4096"]).replacen(&unique(2), &unique(1).to_ascii_lowercase(), 1);
        assert_eq!(answer(calls, shape, &lower), Err(22));
    }
}
