//! What is read from a layout string is held to the library, over drawn strings.

use super::causes::{of, Asked};
use super::printing::of_disk;
use super::reading::read;
use super::Source;
use std::collections::{BTreeMap, BTreeSet};
use std::path::Path;
use testkit::disk::Shape;
use testkit::random::Random;
use testkit::strings::{
    as_printed, changed_bytes, changed_fields, changed_numbers, many, LayoutString, Wanted,
};
use usigrambal::{BlockSize, Disk, Guid, Refused};

/// A disk's text and what it is built with.
struct Drawn {
    text: Vec<u8>,
    n: u64,
    block: BlockSize,
    alignment: u64,
}

impl Drawn {
    fn new(random: &mut Random) -> Drawn {
        let block = random.pick(&BlockSize::ALL);
        let (n, partitions) = (random.pick(&[100, 300, 5000, 1 << 20]), random.pick(&[1, 2, 3, 5, 9]));
        let alignment = random.pick(&[1, 8, 2048]);
        let wanted = Wanted { shape: Shape::of(block.bytes()), n, alignment, partitions };
        let mut drawn = LayoutString::random(wanted, random);
        if random.below(32) == 0 {
            drawn.disk_guid = Guid([0; 16]).to_string();
        }
        let text = match random.below(6) {
            0 => drawn.text(random).into_bytes(),
            1 | 2 => changed_fields(&drawn, random),
            3 => changed_bytes(drawn.text(random).as_bytes(), random),
            _ => changed_numbers(&drawn, block.bytes(), random),
        };
        let alignment = if random.below(16) == 0 { 3 } else { alignment };
        Drawn { text, n, block, alignment }
    }

    fn built(&self) -> Result<(), Refused> {
        let (mut head, mut tail) = (vec![0; self.block.head_len()], vec![0; self.block.tail_len()]);
        let mut disk = Disk { head: &mut head, tail: &mut tail, n: self.n, block: self.block };
        disk.build(self.alignment, &self.text)
    }

    /// The lines of the failure.
    fn told(&self, refused: Refused) -> Vec<String> {
        let (mut head, mut tail) = (vec![0; self.block.head_len()], vec![0; self.block.tail_len()]);
        let disk = Disk { head: &mut head, tail: &mut tail, n: self.n, block: self.block };
        let source = Source { text: self.text.clone(), path: None };
        let asked = Asked { path: Path::new("disk.img"), source: &source, alignment: self.alignment };
        of(refused, &asked, &disk).lines()
    }
}

/// A text is out of form exactly where the library says so; each refusal has its hint, and names its partition.
#[test]
fn a_cause_is_found_for_every_refusal_and_none_for_what_is_taken() {
    let mut random = Random::new(70);
    let mut seen = BTreeMap::new();
    for _ in 0..12_000 {
        let drawn = Drawn::new(&mut random);
        let built = drawn.built();
        let number = built.map_or_else(|refused| refused.number(), |()| 0);
        let shown = drawn.text.escape_ascii();
        assert_eq!(read(&drawn.text).is_err(), number == 70, "{shown}");
        *seen.entry(number).or_insert(0) += 1;
        let Err(refused) = built else { continue };
        let lines = drawn.told(refused);
        assert!(lines.len() == 2 && lines[1].starts_with("hint: "), "{number} {shown}: {lines:?}");
        let named = lines[0].contains(": partition ");
        assert_eq!(named, ![3, 27, 70].contains(&number), "{number} {shown}: {lines:?}");
    }
    let numbers: BTreeSet<u32> = seen.keys().copied().collect();
    assert_eq!(numbers, [0, 3, 20, 21, 22, 25, 26, 27, 70, 71, 72].into(), "{seen:?}");
}

/// The boot loader's manual prints strings that no library can take; and the longest strings.
#[test]
fn strings_as_they_are_printed_and_long_ones() {
    for text in as_printed() {
        assert!(read(text.as_bytes()).is_err(), "{text}");
    }
    for count in [1, 2, 127, 128, 129, 135] {
        let text = many(count, 512);
        assert_eq!(read(text.as_bytes()).map(|parts| parts.len()).ok(), Some(count));
    }
    let long = many(128, 512);
    let zeros = |len: usize| long.replacen("512", &format!("{:0>1$}", 512, 3 + len - long.len()), 1);
    assert!(read(zeros(8192).as_bytes()).is_ok() && read(zeros(8193).as_bytes()).is_err());
}

/// Every start that the hint of 72 calls free is one.
#[test]
fn free_starts_are_free() {
    let mut random = Random::new(72);
    let mut tried = 0;
    while tried < 300 {
        let drawn = Drawn::new(&mut random);
        let Err(refused) = drawn.built() else { continue };
        if refused.number() != 72 {
            continue;
        }
        let lines = drawn.told(refused);
        let parts = read(&drawn.text).expect("in form");
        let (_, behind) = lines[0].split_once(": partition ").expect("a partition");
        let number: usize = behind.split(' ').next().and_then(|word| word.parse().ok()).expect("a number");
        let typed = parts[number - 1].start.expect("a start").typed;
        let free = lines[1].split("start=").skip(2).map(|told| told.split(' ').next().expect("a start"));
        for start in free {
            let text = String::from_utf8(drawn.text.clone()).expect("UTF-8");
            let at = typed.as_ptr() as usize - drawn.text.as_ptr() as usize;
            let text = format!("{}{start}{}", &text[..at], &text[at + typed.len()..]);
            let again = Drawn { text: text.clone().into_bytes(), ..drawn };
            if let Err(refused) = again.built() {
                let named = again.told(refused)[0].contains(&format!(": partition {number} "));
                assert!(refused.number() != 72 || !named, "{text}");
            }
            tried += 1;
        }
    }
}

/// Each disk that a string makes is told as a string that makes the same bytes, whatever the alignment.
#[test]
fn what_is_built_is_told_and_built_again() {
    let mut random = Random::new(8192);
    let (mut told, mut too_long) = (0, 0);
    while told < 1000 || too_long == 0 {
        let Drawn { mut text, n, block, alignment } = Drawn::new(&mut random);
        if random.below(20) == 0 {
            text = many(random.pick(&[60, 100, 128]), block.bytes()).into_bytes();
        }
        let built = |alignment, text: &[u8]| {
            let (mut head, mut tail) = (vec![0; block.head_len()], vec![0; block.tail_len()]);
            let mut disk = Disk { head: &mut head, tail: &mut tail, n, block };
            disk.build(alignment, text).ok()?;
            let string = of_disk(Path::new("disk.img"), &disk).map_err(|failure| failure.lines()[0].clone());
            Some((string, head, tail))
        };
        let Some((string, head, tail)) = built(alignment, &text) else { continue };
        match string {
            Ok(string) => {
                let again = random.pick(&[1, 8, 2048]);
                assert_eq!(built(again, string.as_bytes()), Some((Ok(string.clone()), head, tail)));
                told += 1;
            }
            Err(line) => {
                assert!(line.contains("cannot be told as a layout string: it would have "), "{line}");
                too_long += 1;
            }
        }
    }
}
