//! The partitions of a disk and the areas of a flash image, as each tool lists them.

use crate::disk::Scratch;
use crate::peer::printed;
use std::collections::BTreeMap;
use std::fmt;
use std::path::Path;

/// A partition; GUIDs as text in upper case.
#[derive(Clone, Debug, PartialEq, Eq)]
pub struct Partition {
    pub slot: u64,
    pub first: u64,
    pub last: u64,
    pub kind: String,
    pub unique: String,
    pub attributes: u64,
    pub name: String,
}

impl fmt::Display for Partition {
    fn fmt(&self, f: &mut fmt::Formatter<'_>) -> fmt::Result {
        let Partition { slot, first, last, kind, unique, attributes, name } = self;
        write!(f, "{slot} {first} {last} {kind} {unique} {attributes:016X} \"{name}\"")
    }
}

/// Reads what `Display` writes.
pub fn partition(line: &str) -> Option<Partition> {
    let mut words = line.splitn(7, ' ');
    let mut word = || words.next();
    Some(Partition {
        slot: word()?.parse().ok()?,
        first: word()?.parse().ok()?,
        last: word()?.parse().ok()?,
        kind: word()?.to_string(),
        unique: word()?.to_string(),
        attributes: u64::from_str_radix(word()?, 16).ok()?,
        name: word()?.strip_prefix('"')?.strip_suffix('"')?.to_string(),
    })
}

/// By `sgdisk -p` and `sgdisk -i`: the latter denies an unused slot that still holds a first block.
pub fn sgdisk(image: &Path) -> Vec<Partition> {
    let text = image.to_str().expect("a path in UTF-8");
    sgdisk_slots(image).into_iter().filter_map(|slot| sgdisk_one(text, slot)).collect()
}

/// The slots of `sgdisk -p`.
pub fn sgdisk_slots(image: &Path) -> Vec<u64> {
    let table = printed("sgdisk", [Path::new("-p"), image]);
    let rows = table.lines().skip_while(|line| !line.starts_with("Number")).skip(1);
    rows.filter_map(|row| row.split_whitespace().next()?.parse().ok()).collect()
}

fn sgdisk_one(image: &str, slot: u64) -> Option<Partition> {
    let text = printed("sgdisk", ["-i", &slot.to_string(), image]);
    if text.contains(&format!("Partition #{slot} does not exist.")) {
        return None;
    }
    let field = |label: &str| {
        let line = text.lines().find_map(|line| line.strip_prefix(label));
        line.unwrap_or_else(|| panic!("sgdisk -i {slot}: no {label}\n{text}")).trim()
    };
    let word = |label: &str| field(label).split(' ').next().unwrap_or("");
    Some(Partition {
        slot,
        first: word("First sector:").parse().expect("a block number"),
        last: word("Last sector:").parse().expect("a block number"),
        kind: word("Partition GUID code:").to_string(),
        unique: word("Partition unique GUID:").to_string(),
        attributes: u64::from_str_radix(word("Attribute flags:"), 16).expect("a hex number"),
        name: field("Partition name:").trim_matches('\'').to_string(),
    })
}

/// By `sfdisk -d`. Its words for attributes stand for the bits of the UEFI specification. An unused slot that still
/// holds a first block is a row too, with a type of zeros.
pub fn sfdisk(image: &Path) -> Vec<Partition> {
    let image = image.to_str().expect("a path in UTF-8");
    let script = printed("sfdisk", ["-d", image]);
    let rows = script.lines().filter_map(|line| line.strip_prefix(image)?.split_once(" : "));
    rows.map(|(slot, fields)| sfdisk_one(slot, fields)).collect()
}

fn sfdisk_one(slot: &str, fields: &str) -> Partition {
    let (fields, name) = match fields.split_once(", name=\"") {
        Some((fields, rest)) => (fields.to_string(), rest),
        None => (fields.to_string(), "\""),
    };
    let (name, rest) = name.split_once('"').expect("a name in quotes");
    let all = fields + rest;
    let pairs: BTreeMap<&str, &str> =
        all.split(", ").filter_map(|pair| pair.split_once('=')).map(|(k, v)| (k.trim(), v.trim())).collect();
    let first: u64 = pairs["start"].parse().expect("a block number");
    let size: u64 = pairs["size"].parse().expect("a number of blocks");
    Partition {
        // A device whose name ends in a digit has a letter before the slot.
        slot: slot.trim().trim_start_matches('p').parse().expect("a slot"),
        first,
        last: first + size - 1,
        kind: pairs["type"].to_string(),
        unique: pairs["uuid"].to_string(),
        attributes: pairs.get("attrs").map_or(0, |words| attributes(words.trim_matches('"'))),
        name: unescaped(name),
    }
}

/// sfdisk writes bytes beyond ASCII as `\x` and two digits, unless the locale has them.
fn unescaped(name: &str) -> String {
    let mut pieces = name.split("\\x");
    let mut bytes = pieces.next().unwrap_or("").as_bytes().to_vec();
    for piece in pieces {
        let (digits, rest) = piece.split_at(2);
        bytes.push(u8::from_str_radix(digits, 16).expect("two hex digits"));
        bytes.extend(rest.as_bytes());
    }
    String::from_utf8(bytes).expect("a name in UTF-8")
}

/// The bits that sfdisk names.
fn attributes(words: &str) -> u64 {
    let bit = |word: &str| match word {
        "RequiredPartition" => 0,
        "NoBlockIOProtocol" => 1,
        "LegacyBIOSBootable" => 2,
        guid => guid.strip_prefix("GUID:").and_then(|bit| bit.parse().ok()).expect("a bit number"),
    };
    let words = words.replace("GUID:", " GUID:").replace(',', " GUID:");
    words.split_whitespace().fold(0, |bits, word| bits | 1 << bit(word))
}

/// By `cgpt show -i`, which leaves bits 1 and 3 to 47 of the attributes out.
pub fn cgpt(image: &Path, slots: impl IntoIterator<Item = u64>) -> Vec<Partition> {
    let image = image.to_str().expect("a path in UTF-8");
    let one = |slot: u64| {
        let field = |option: &str| {
            printed("cgpt", ["show", "-i", &slot.to_string(), option, image]).trim_end().to_string()
        };
        let number = |option: &str| field(option).parse::<u64>().expect("a number");
        let first = number("-b");
        let attributes = field("-A");
        let high = u64::from_str_radix(attributes.trim_start_matches("0x"), 16).expect("a hex number");
        Partition {
            slot,
            first,
            last: first + number("-s") - 1,
            kind: field("-t"),
            unique: field("-u"),
            attributes: high << 48 | number("-B") << 2 | number("-R"),
            name: field("-l"),
        }
    };
    slots.into_iter().map(one).collect()
}

/// The rows of `cgpt show -q`: slot, first block, size and type, in its words where it has some.
pub fn cgpt_quick(image: &Path) -> Vec<(u64, u64, u64, String)> {
    let table = printed("cgpt", [Path::new("show"), Path::new("-q"), image]);
    let row = |line: &str| {
        let mut words = line.split_whitespace();
        let mut number = || words.next()?.parse().ok();
        let (first, size, slot) = (number()?, number()?, number()?);
        Some((slot, first, size, words.collect::<Vec<_>>().join(" ")))
    };
    table.lines().map(|line| row(line).unwrap_or_else(|| panic!("cgpt show -q: {line}"))).collect()
}

/// The free blocks of a disk and the longest run of them.
pub type Free = (u64, u64);

/// By `sgdisk -p`, and `-F` and `-E` for the longest run.
pub fn sgdisk_free(image: &Path) -> Free {
    let image = image.to_str().expect("a path in UTF-8");
    let table = printed("sgdisk", ["-p", image]);
    let total = table.lines().find_map(|line| line.strip_prefix("Total free space is "));
    let total = number_in_front(total.expect("a total"));
    let end = |option| number_in_front(&printed("sgdisk", ["-a", "1", option, image]));
    (total, if total == 0 { 0 } else { end("-E") - end("-F") + 1 })
}

/// By `sfdisk -F`, which lists the runs.
pub fn sfdisk_free(image: &Path) -> Free {
    let table = printed("sfdisk", [Path::new("-F"), image]);
    let total = table.lines().next().and_then(|line| line.rsplit(", ").next()).expect("a total");
    let rows = table.lines().skip_while(|line| !line.trim_start().starts_with("Start")).skip(1);
    let runs = rows.filter_map(|row| row.split_whitespace().nth(2)?.parse().ok());
    (number_in_front(total), runs.max().unwrap_or(0))
}

fn number_in_front(text: &str) -> u64 {
    let number = text.split_whitespace().next().and_then(|word| word.parse().ok());
    number.unwrap_or_else(|| panic!("no number: {text}"))
}

/// An area of a flash image.
#[derive(Clone, Debug, PartialEq, Eq)]
pub struct Area {
    pub name: String,
    pub offset: u64,
    pub size: u64,
}

/// By `dump_fmap -p`, in the order of the map.
pub fn dump_fmap(image: &Path) -> Vec<Area> {
    let image = image.to_str().expect("a path in UTF-8");
    let table = printed("dump_fmap", ["-p", image]);
    table.lines().map(|line| area(line).unwrap_or_else(|| panic!("dump_fmap -p: {line}"))).collect()
}

/// Reads `NAME OFFSET SIZE`.
pub fn area(line: &str) -> Option<Area> {
    let mut words = line.rsplitn(3, ' ');
    let size = words.next()?.parse().ok()?;
    let offset = words.next()?.parse().ok()?;
    Some(Area { name: words.next()?.to_string(), offset, size })
}

/// The names that `cbfstool layout -w` marks as preserved.
pub fn preserved(image: &Path) -> Vec<String> {
    let areas = cbfstool(image).into_iter();
    areas.filter(|(_, preserved)| *preserved == Some(true)).map(|(area, _)| area.name).collect()
}

/// By `cbfstool layout -w`; whether it is marked as preserved, which it tells of areas that hold no other, equal none
/// and are not FMAP.
pub fn cbfstool(image: &Path) -> Vec<(Area, Option<bool>)> {
    let table = printed("cbfstool", [image, Path::new("layout"), Path::new("-w")]);
    let rows = table.lines().filter(|line| line.starts_with('\''));
    rows.flat_map(|row| cbfstool_row(row).unwrap_or_else(|| panic!("cbfstool layout: {row}"))).collect()
}

/// Reads `'NAME' (MARKS, size SIZE, offset OFFSET)`; equal areas stand together in a row.
fn cbfstool_row(row: &str) -> Option<Vec<(Area, Option<bool>)>> {
    let (names, rest) = row.rsplit_once(" (")?;
    let (marks, numbers) = rest.strip_suffix(')')?.split_once("size ")?;
    let (size, offset) = numbers.split_once(", offset ")?;
    let (size, offset) = (size.parse().ok()?, offset.parse().ok()?);
    let alone = names.strip_suffix(" are aliases for the same region");
    let told = alone.is_none() && !marks.contains("read-only");
    let names = alone.unwrap_or(names).strip_prefix('\'')?.strip_suffix('\'')?.split("', '");
    let preserved = told.then(|| marks.contains("preserve"));
    Some(names.map(|name| (Area { name: name.into(), offset, size }, preserved)).collect())
}

/// By `flashrom --fmap`, in the order of the map; the image is that of a chip of 128 KiB. Area FMAP is read into `part`.
pub fn flashrom(image: &Path, part: &Path) -> Vec<Area> {
    let chip = format!("dummy:emulate=M25P10.RES,image={}", image.display());
    let fmap = format!("FMAP:{}", part.display());
    let whole = Scratch::new();
    let whole = whole.path.to_str().expect("a path in UTF-8");
    let said = printed("flashrom", ["-p", &chip, "-c", "M25P10", "--fmap", "-i", &fmap, "-r", whole, "-V"]);
    let rows = said.lines().filter_map(|line| line.strip_prefix("Added layout entry "));
    // A region of its own.
    let rows = rows.filter(|row| !row.ends_with(" named complete flash"));
    rows.map(|row| flashrom_one(row).unwrap_or_else(|| panic!("flashrom: {row}"))).collect()
}

/// Reads `FIRST - LAST named NAME`.
fn flashrom_one(row: &str) -> Option<Area> {
    let (range, name) = row.split_once(" named ")?;
    let (first, last) = range.split_once(" - ")?;
    let number = |text| u64::from_str_radix(text, 16).ok();
    let offset = number(first)?;
    Some(Area { name: name.into(), offset, size: number(last)? + 1 - offset })
}

#[cfg(test)]
mod tests {
    use super::*;

    #[test]
    fn a_partition_is_read_as_it_is_written() {
        let line = "5 34 66 0FC63DAF-8483-4772-8E79-3D69D8477DE4 00000000-0000-0000-0000-000000000001 \
                    8000000000000001 \"two words\"";
        assert_eq!(partition(line).unwrap().to_string(), line);
        assert_eq!(partition("5 34 66").map(|p| p.slot), None);
    }

    #[test]
    fn an_area_of_dump_fmap() {
        let found = area("RW_CAL 36864 1024");
        assert_eq!(found, Some(Area { name: "RW_CAL".into(), offset: 36_864, size: 1024 }));
        assert_eq!(area("RW_CAL 36864"), None);
    }

    #[test]
    fn areas_of_cbfstool_and_flashrom() {
        let area = Area { name: "A'(".into(), offset: 65_536, size: 4096 };
        let row = cbfstool_row("'A'(' (preserve, size 4096, offset 65536)");
        assert_eq!(row, Some(vec![(area.clone(), Some(true))]));
        let row = cbfstool_row("'A', 'B' are aliases for the same region (read-only, size 1, offset 0)");
        assert_eq!(row.map(|areas| areas.len()), Some(2));
        assert_eq!(flashrom_one("00010000 - 00010fff named A'("), Some(area));
    }

    #[test]
    fn attributes_of_sfdisk_are_bits() {
        assert_eq!(attributes("RequiredPartition LegacyBIOSBootable GUID:48,63"), 0x8001_0000_0000_0005);
        assert_eq!(attributes(""), 0);
    }

    #[test]
    fn names_of_sfdisk_are_unescaped() {
        assert_eq!(unescaped("Gr\\xc3\\xb6\\xc3\\x9fe"), "Größe");
        assert_eq!(unescaped("boot"), "boot");
    }

    #[test]
    fn a_row_of_sfdisk() {
        let row = "start=          34, size=          10, type=0FC63DAF-8483-4772-8E79-3D69D8477DE4, \
                   uuid=AAAAAAAA-BBBB-CCCC-DDDD-EEEEEEEEEEE1, name=\"a, b\", attrs=\"GUID:60\"";
        let found = sfdisk_one("7", row);
        assert_eq!((found.slot, found.first, found.last), (7, 34, 43));
        assert_eq!((found.name.as_str(), found.attributes), ("a, b", 1 << 60));
        // Of a device such as /dev/loop0.
        assert_eq!(sfdisk_one("p128", row).slot, 128);
    }
}
