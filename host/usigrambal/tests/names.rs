//! Names that more than one partition has, and calls that would give one to another partition (rules a1 to a3).

use testkit::disk::{Disk as Stored, Shape, SHAPES};
use usigrambal::{crc32, AttributeRule, Disk, Guid, Name, NewPartition, Placed, State};

/// Where the name stands in an entry.
const NAME: usize = 56;

fn lent(stored: &mut Stored) -> Disk<'_> {
    let block = stored.block.try_into().expect("a block size");
    Disk { head: &mut stored.head, tail: &mut stored.tail, n: stored.n, block }
}

fn new(unique: u8, text: &str) -> NewPartition {
    let (kind, unique, name) = (Guid([0xB7; 16]), Guid([unique; 16]), Name::new(text).expect("a name"));
    let rule = AttributeRule::Earlier;
    NewPartition { kind, unique, size: 1, alignment: 1, attributes: 0, rule, name }
}

/// A disk with partitions of these names, whoever else has them.
fn called(shape: Shape, names: &[&str]) -> Stored {
    let mut stored = shape.filled(1000, 0);
    lent(&mut stored).format(Guid([1; 16])).expect("a table");
    for (unique, name) in (1..).zip(names) {
        lent(&mut stored).add(&new(unique, "")).expect("room");
        set(&mut stored, unique.into(), |entry| {
            let units = name.encode_utf16().flat_map(u16::to_le_bytes);
            entry[NAME..].iter_mut().zip(units).for_each(|(to, from)| *to = from);
        });
    }
    stored
}

/// Changes a slot in both copies.
fn set(stored: &mut Stored, slot: u64, change: impl Fn(&mut [u8])) {
    stored.entry(slot).into_iter().for_each(change);
    stored.set_crcs(crc32);
}

fn shared(stored: &mut Stored) -> Vec<(String, Vec<u64>)> {
    let names = lent(stored).shared_names().expect("a table");
    names.into_iter().map(|shared| (shared.name.to_text(), shared.slots)).collect()
}

fn of(names: &[(&str, &[u64])]) -> Vec<(String, Vec<u64>)> {
    names.iter().map(|(name, slots)| (name.to_string(), slots.to_vec())).collect()
}

/// The empty name may repeat; of the others each is told once, with all that have it.
#[test]
fn names_and_their_slots() {
    for shape in SHAPES {
        let names = ["a", "scratch", "", "b", "", "scratch", "a", "A", "scratch"];
        assert_eq!(shared(&mut called(shape, &names)), of(&[("a", &[1, 7]), ("scratch", &[2, 6, 9])]));
        assert_eq!(shared(&mut called(shape, &[""; 128])), []);
        assert_eq!(shared(&mut called(shape, &["x"; 128])), of(&[("x", &(1..=128).collect::<Vec<_>>())]));
        assert_eq!(shared(&mut called(shape, &[])), []);
    }
}

/// Each byte of the 72 tells two names apart; no other byte of an entry does.
#[test]
fn every_byte_of_an_entry() {
    for shape in SHAPES {
        let full = "f".repeat(36);
        let mut stored = called(shape, &[&full, "", &full]);
        assert_eq!(shared(&mut stored), of(&[(&full, &[1, 3])]));
        for at in NAME..128 {
            set(&mut stored, 3, |entry| entry[at] ^= 0x80);
            assert_eq!(shared(&mut stored), [], "byte {at}");
            set(&mut stored, 3, |entry| entry[at] ^= 0x80);
        }
        set(&mut stored, 3, |entry| [0, 16, 48, 55].iter().for_each(|at| entry[*at] ^= 0x80));
        assert_eq!(shared(&mut stored), of(&[(&full, &[1, 3])]));
        set(&mut stored, 3, |entry| entry[..16].fill(0));
        assert_eq!(shared(&mut stored), [], "an unused slot");
    }
}

/// One text, and units behind a zero.
#[test]
fn units_behind_a_zero_count() {
    for shape in SHAPES {
        let mut stored = called(shape, &["ab", "ab\0z", "ab\0y", "\0z", ""]);
        assert_eq!(shared(&mut stored), []);
        let mut stored = called(shape, &["ab\0z", "ab", "ab\0z", "\0z", "\0z"]);
        assert_eq!(shared(&mut stored), of(&[("ab", &[1, 3]), ("", &[4, 5])]));
    }
}

/// In states 2 to 4 too.
#[test]
fn names_are_those_of_the_copy_in_use() {
    for shape in SHAPES {
        let mut mixed = Stored { tail: called(shape, &["a", "a"]).tail, ..called(shape, &["b", "b"]) };
        assert_eq!(lent(&mut mixed).state(), Ok(State::Different));
        assert_eq!(shared(&mut mixed), of(&[("b", &[1, 2])]));
        mixed.head[shape.header_in_head()] ^= 1;
        assert_eq!(lent(&mut mixed).state(), Ok(State::BackupOnly));
        assert_eq!(shared(&mut mixed), of(&[("a", &[1, 2])]));
        mixed.tail[shape.header_in_tail()] ^= 1;
        assert_eq!(lent(&mut mixed).shared_names().unwrap_err().number(), 10);
    }
}

/// The name is told, printable, and nothing has changed.
#[test]
fn a_name_that_is_taken() {
    for shape in SHAPES {
        let mut stored = called(shape, &["", "scra\ntch", "", "other"]);
        let before = stored.clone();
        let (taken, own) = (Name::new("scra\ntch").expect("a name"), Name::new("other").expect("a name"));
        let words = "26: the name is already in another used slot: \"scra\\ntch\"";
        let mut disk = lent(&mut stored);
        assert_eq!(disk.add(&new(9, "scra\ntch")).unwrap_err().to_string(), words);
        assert_eq!(disk.rename(4, &taken).unwrap_err().to_string(), words);
        assert_eq!(disk.rename(9, &taken).unwrap_err().to_string(), "13: the slot is unused: slot 9");
        assert_eq!((disk.rename(2, &taken), disk.rename(4, &own)), (Ok(()), Ok(())));
        assert!(stored == before);
        let mut disk = lent(&mut stored);
        disk.delete(2).expect("a partition");
        assert_eq!(disk.add(&new(9, "scra\ntch")).expect("room").slot, 2);
    }
}

/// A partition's own name is refused to it where another one has it too.
#[test]
fn a_name_that_is_shared() {
    for shape in SHAPES {
        let mut stored = called(shape, &["a", "b", "a", "ab\0z"]);
        assert_eq!(lent(&mut stored).state(), Ok(State::Same));
        let mut rename = |slot, text: &str| {
            let renamed = lent(&mut stored).rename(slot, &Name::new(text).expect("a name"));
            renamed.map_err(|refused| refused.number())
        };
        assert_eq!([rename(1, "a"), rename(3, "a"), rename(2, "a")], [Err(26); 3]);
        assert_eq!([rename(1, ""), rename(3, "a"), rename(2, "ab")], [Ok(()); 3]);
        let first = shape.first_usable + 4;
        assert_eq!(lent(&mut stored).add(&new(9, "")), Ok(Placed { slot: 5, first }));
        assert_eq!(shared(&mut stored), []);
    }
}
