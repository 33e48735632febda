//! Layout strings: the disk that one becomes, and what refuses it (rules b1 to b8 and b10, with e2, e3 and l5).

use super::{unique, Calls, New, Rule, DISK_GUID};
use crate::disk::{Disk, Shape, SHAPES};
use crate::listing::Partition;
use crate::random::Random;
use crate::strings::{as_printed, samples, LayoutString, Wanted, BOOTABLE, NO_TYPE, SHORT_NAMES};

/// The blocks of a disk where nothing else is said.
pub(super) const N: u64 = 200;

/// What head and tail hold before a string.
const BEFORE: u8 = 0xA5;

/// What the string comes to on a disk that held something else; a refused one changes nothing.
pub(super) fn built(calls: &Calls, shape: Shape, n: u64, alignment: u64, text: &str) -> Result<Disk, u32> {
    let before = shape.filled(n, BEFORE);
    let mut disk = before.clone();
    let answer = (calls.build)(&mut disk, alignment, text.as_bytes());
    match answer {
        Ok(()) => assert_eq!((calls.state)(&disk), Ok(1), "{text}"),
        Err(_) => assert_eq!(disk.difference(&before), None, "{text}"),
    }
    answer.map(|()| disk)
}

/// First and last block of each partition of the string, or its refusal.
pub(super) fn places(
    calls: &Calls,
    shape: Shape,
    n: u64,
    alignment: u64,
    text: &str,
) -> Result<Vec<(u64, u64)>, u32> {
    let disk = built(calls, shape, n, alignment, text)?;
    Ok(calls.table(&disk).iter().map(|row| (row.first, row.last)).collect())
}

/// The string of these partitions, each with a name and a GUID of its own.
pub(super) fn string(partitions: &[&str]) -> String {
    let mut text = format!("uuid_disk={DISK_GUID}");
    for (partition, number) in partitions.iter().zip(1..) {
        text += &format!(";name=p{number},uuid={},{partition}", unique(number));
    }
    text
}

/// The answer for a string on a disk of 200 blocks at alignment 1.
pub(super) fn answer(calls: &Calls, shape: Shape, text: &str) -> Result<(), u32> {
    built(calls, shape, N, 1, text).map(drop)
}

/// Document 004's strings, with what it leaves out filled in.
pub fn strings_of_document_004_become_disks(calls: &Calls) {
    for sample in samples() {
        let disk = built(calls, Shape::of(sample.block), sample.n, sample.alignment, &sample.text);
        let disk = disk.unwrap_or_else(|number| panic!("{number}: {}", sample.text));
        let rows = calls.table(&disk);
        let told: Vec<_> = rows
            .iter()
            .map(|row| (row.name.as_str(), row.kind.as_str(), row.first, row.last, row.attributes))
            .collect();
        assert_eq!(told, sample.partitions, "{}, alignment {}", sample.text, sample.alignment);
        assert!(rows.iter().map(|row| row.slot).eq(1..=rows.len() as u64));
    }
}

/// As the document prints them, they are out of form here.
pub fn strings_as_document_004_prints_them_are_refused(calls: &Calls) {
    for text in as_printed() {
        let answer = built(calls, Shape::of(512), 1 << 20, 1, &text).map(drop);
        assert_eq!(answer, Err(70), "{text}");
    }
}

/// Every field of every slot is what the string says, and each partition stands where a search finds it.
pub fn drawn_strings_become_their_partitions(calls: &Calls) {
    let (mut random, mut stand) = (Random::new(17), 0);
    for shape in SHAPES {
        for round in 0..400 {
            let alignment = random.pick(&[1, 1, 8, 2048]);
            let n = random.pick(&[100, 300, 2100, 5000, 40_000, 1 << 32]);
            let partitions = 1 + random.below(if round % 20 == 0 { 40 } else { 6 });
            let wanted = Wanted { shape, n, alignment, partitions };
            let string = LayoutString::random(wanted, &mut random);
            let text = string.text(&mut random);
            let disk = built(calls, shape, n, alignment, &text);
            let expected = string.places(wanted).map(|places| rows(&string, &places));
            assert_eq!(disk.map(|disk| calls.table(&disk)), expected, "N {n}, alignment {alignment}: {text}");
            stand += usize::from(expected.is_ok());
        }
    }
    assert!((300..790).contains(&stand), "{stand} of 800");
}

/// The partitions of a string that stand in these places.
pub(super) fn rows(string: &LayoutString, places: &[(u64, u64)]) -> Vec<Partition> {
    let row =
        |((partition, slot), (first, blocks)): ((&crate::strings::Partition, u64), &(u64, u64))| Partition {
            slot,
            first: *first,
            last: first + blocks - 1,
            kind: partition.kind_guid().to_ascii_uppercase(),
            unique: partition.unique.to_ascii_uppercase(),
            attributes: partition.attributes(),
            name: partition.name.clone(),
        };
    string.partitions.iter().zip(1..).zip(places).map(row).collect()
}

/// A string without starts is formatting, and then an add for each of its partitions, byte for byte.
pub fn a_string_is_formatting_and_adds(calls: &Calls) {
    let mut random = Random::new(23);
    for shape in SHAPES {
        for alignment in [1, 8, 2048] {
            let n = 50_000;
            let wanted = Wanted { shape, n, alignment, partitions: 12 };
            let mut string = LayoutString::random(wanted, &mut random);
            for partition in &mut string.partitions {
                partition.start = None;
                partition.size = shape.block * (1 + random.number_below(500));
            }
            let ours = built(calls, shape, n, alignment, &string.text(&mut random)).expect("room");
            let mut added = calls.formatted(shape, n, &string.disk_guid);
            for partition in &string.partitions {
                let new = New {
                    kind: partition.kind_guid(),
                    unique: &partition.unique,
                    size: partition.size / shape.block,
                    alignment,
                    attributes: partition.attributes(),
                    rule: Rule::Present,
                    name: &partition.name,
                };
                (calls.add)(&mut added, &new).expect("room");
            }
            assert_eq!(ours.difference(&added), None, "{shape:?}, alignment {alignment}");
        }
    }
}

/// b1: whatever head and tail held, and however often.
pub fn former_contents_do_not_matter(calls: &Calls) {
    for shape in SHAPES {
        let text = string(&["size=40KiB,bootable", "size=0"]);
        let fresh = built(calls, shape, N, 1, &text).expect("room");
        let mut disk = fresh.clone();
        let three = string(&["size=4KiB", "size=4KiB", "size=4KiB,start=60KiB"]);
        for (text, table) in [(&three, 3), (&text, 2), (&text, 2)] {
            (calls.build)(&mut disk, 1, text.as_bytes()).expect("room");
            assert_eq!(calls.table(&disk).len(), table);
        }
        assert_eq!(disk.difference(&fresh), None);
        // One copy broken, then both.
        disk.head[shape.header_in_head()] ^= 1;
        (calls.build)(&mut disk, 1, text.as_bytes()).expect("room");
        assert_eq!(disk.difference(&fresh), None);
    }
}

/// b2: what must be there, what may be, and what each of it is.
pub fn fields_come_in_any_order_each_once(calls: &Calls) {
    let all = [
        "name=a",
        "size=4KiB",
        "uuid=6E0B6FAB-1C46-4B6B-8F25-000000000001",
        "start=40KiB",
        "type=linux",
        "bootable",
    ];
    let text = |fields: &[&str]| format!("uuid_disk={DISK_GUID};{}", fields.join(","));
    for shape in SHAPES {
        let expected = built(calls, shape, N, 1, &text(&all)).expect("in form");
        let row = calls.row_of(&expected, 1);
        assert_eq!((row.first, row.last), (40 * 1024 / shape.block, 44 * 1024 / shape.block - 1));
        assert_eq!((row.kind.as_str(), row.attributes), (SHORT_NAMES[3].1, BOOTABLE));
        for from in 0..all.len() {
            let mut fields = all.to_vec();
            fields.rotate_left(from);
            assert_eq!(
                built(calls, shape, N, 1, &text(&fields)).expect("in form").difference(&expected),
                None
            );
            fields.reverse();
            assert_eq!(
                built(calls, shape, N, 1, &text(&fields)).expect("in form").difference(&expected),
                None
            );
            // The first three must stand, the others may be left out.
            let rest: Vec<&str> = all.iter().copied().filter(|field| *field != all[from]).collect();
            let left_out = if from < 3 { Err(70) } else { Ok(()) };
            assert_eq!(answer(calls, shape, &text(&rest)), left_out, "without {}", all[from]);
            let twice = [&all[..], &[all[from]]].concat();
            assert_eq!(answer(calls, shape, &text(&twice)), Err(70), "{} twice", all[from]);
            let empty = [&all[..from], &[""], &all[from..]].concat();
            assert_eq!(answer(calls, shape, &text(&empty)), Err(70), "an empty field at {from}");
        }
        let bare = calls.row_of(&built(calls, shape, N, 1, &text(&all[..3])).expect("in form"), 1);
        assert_eq!((bare.kind.as_str(), bare.attributes, bare.first), (NO_TYPE, 0, shape.first_usable));
        assert_eq!(bare.slot, 1);
    }
}
