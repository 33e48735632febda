//! The ways in which a layout string is refused, by number.

use crate::run::Cell;
use testkit::disk::Shape;

/// The disk for which a string is written.
#[derive(Clone, Copy)]
pub struct Site {
    pub shape: Shape,
    pub n: u64,
}

impl Site {
    /// So many blocks in bytes.
    pub fn bytes(&self, blocks: u64) -> u64 {
        blocks * self.shape.block
    }

    /// The bytes before a block, counted from the first usable one.
    pub fn start(&self, block: u64) -> u64 {
        self.bytes(self.shape.first_usable + block)
    }
}

/// A field, by its key, in other words; empty ones leave it out.
pub type Field = (&'static str, String);

/// How a way is planted in a good string.
#[derive(Clone, Copy)]
pub enum Plant {
    /// The call is told other bytes of a block, another number of blocks, another alignment, or lent a buffer that is longer
    /// or shorter.
    Block(u64),
    Blocks(fn(Shape) -> u64),
    Alignment(u64),
    Length(&'static str, isize),
    /// The whole string.
    Whole(&'static str),
    /// In place of `uuid_disk=` and its GUID.
    Disk(&'static str),
    /// Behind the last partition.
    End(&'static str),
    /// Between two partitions, in place of the semicolon.
    Between(&'static str),
    /// So many bytes by leading zeros.
    Long(usize),
    /// Fields of a partition.
    Fields(fn(&Site) -> Vec<Field>),
    /// The same, with an earlier partition that has this name and GUID, or these blocks.
    Again(fn(&Site) -> Vec<Field>),
    /// As many partitions stand before it as there are slots.
    Many,
}

pub struct Way {
    pub number: u32,
    pub name: &'static str,
    pub plant: Plant,
}

impl Way {
    /// Whether it is one partition's.
    pub fn is_of_partition(&self) -> bool {
        matches!(self.plant, Plant::Fields(_) | Plant::Again(_) | Plant::Many)
    }

    /// What stands in its place in a string, if another way could stand there too.
    pub fn place(&self) -> Option<&'static str> {
        match self.plant {
            Plant::Block(_) => Some("block"),
            Plant::Blocks(_) => Some("blocks"),
            Plant::Alignment(_) => Some("alignment"),
            Plant::Length(buffer, _) => Some(buffer),
            Plant::Whole(_) | Plant::Disk(_) => Some("uuid_disk"),
            Plant::End(_) => Some("end"),
            Plant::Between(_) => Some("between"),
            Plant::Long(_) => Some("long"),
            Plant::Many => Some("many"),
            Plant::Fields(_) | Plant::Again(_) => None,
        }
    }
}

const fn way(number: u32, name: &'static str, plant: Plant) -> Way {
    Way { number, name, plant }
}

fn field(key: &'static str, value: impl ToString) -> Field {
    (key, format!("{key}={}", value.to_string()))
}

fn raw(key: &'static str, text: &'static str) -> Field {
    (key, text.to_string())
}

/// The name, the GUID and a block of the first partition of every draft but those without one.
pub const FIRST_NAME: &str = "first";
pub const FIRST_UUID: &str = "11111111-2222-3333-4444-555555555555";
pub const FIRST_START: u64 = 50;
pub const FIRST_BLOCKS: u64 = 5;
const ZERO: &str = "00000000-0000-0000-0000-000000000000";

use Plant::*;

pub const WAYS: &[Way] = &[
    way(6, "blocks of 1024 bytes", Block(1024)),
    way(6, "blocks of 0 bytes", Block(0)),
    way(6, "2^32 more bytes", Block((1 << 32) + 512)),
    way(1, "a longer head", Length("head", 1)),
    way(1, "a shorter head", Length("head", -1)),
    way(1, "no head", Length("head", -24_576)),
    way(1, "a longer tail", Length("tail", 16)),
    way(1, "a shorter tail", Length("tail", -1)),
    way(2, "a block too few", Blocks(|shape| shape.least_blocks() - 1)),
    way(2, "no block", Blocks(|_| 0)),
    way(2, "a block too many", Blocks(|_| (1 << 32) + 1)),
    // b1.
    way(70, "8,193 bytes", Long(8193)),
    way(70, "no byte", Whole("")),
    way(70, "a semicolon alone", Whole(";")),
    way(70, "uuid_disk alone", Whole("uuid_disk=11111111-2222-3333-4444-555555555556")),
    way(70, "no partition", Whole("uuid_disk=11111111-2222-3333-4444-555555555556;")),
    way(70, "a partition without uuid_disk", Whole("name=a,size=4096,uuid=11111111-2222-3333-4444-555555555556")),
    way(70, "variables", Whole("uuid_disk=${uuid_gpt_disk};name=${name},size=${size},uuid=${uuid};")),
    way(70, "uuid_disk without =", Disk("uuid_disk")),
    way(70, "uuid_disk without a GUID", Disk("uuid_disk=")),
    way(70, "uuid_disk with a short name", Disk("uuid_disk=data")),
    way(70, "uuid_disk with a bad GUID", Disk("uuid_disk=11111111-2222-3333-4444-55555555555")),
    way(70, "uuid_disk in upper case", Disk("UUID_DISK=11111111-2222-3333-4444-555555555556")),
    way(70, "another key first", Disk("uuid=11111111-2222-3333-4444-555555555556")),
    way(70, "uuid_disk with a field", Disk("uuid_disk=11111111-2222-3333-4444-555555555556,bootable")),
    way(70, "a partition before uuid_disk", Disk("name=b,size=4096,uuid=11111111-2222-3333-4444-555555555557;uuid_disk=11111111-2222-3333-4444-555555555556")),
    way(70, "uuid_disk as a field", Fields(|_| vec![raw("extra", "uuid_disk=11111111-2222-3333-4444-555555555556")])),
    // b2.
    way(70, "no name", Fields(|_| vec![raw("name", "")])),
    way(70, "no size", Fields(|_| vec![raw("size", "")])),
    way(70, "no uuid", Fields(|_| vec![raw("uuid", "")])),
    way(70, "an unknown field", Fields(|_| vec![raw("extra", "flags=1")])),
    way(70, "an unknown word", Fields(|_| vec![raw("extra", "boot")])),
    way(70, "a key in upper case", Fields(|_| vec![raw("name", "NAME=a")])),
    way(70, "a name without =", Fields(|_| vec![raw("name", "name")])),
    way(70, "a size without =", Fields(|_| vec![raw("size", "size")])),
    way(70, "bootable with =", Fields(|_| vec![raw("bootable", "bootable=")])),
    way(70, "bootable with a value", Fields(|_| vec![raw("bootable", "bootable=1")])),
    way(70, "a type of document 004", Fields(|_| vec![raw("type", "type=raid")])),
    way(70, "a type in upper case", Fields(|_| vec![raw("type", "type=DATA")])),
    way(70, "an empty type", Fields(|_| vec![raw("type", "type=")])),
    way(70, "a bad type", Fields(|_| vec![raw("type", "type=C12A7328-F81F-11D2-BA4B-00A0C93EC93G")])),
    // b3, b5.
    way(70, "an empty size", Fields(|_| vec![raw("size", "size=")])),
    way(70, "a suffix alone", Fields(|_| vec![raw("size", "size=KiB")])),
    way(70, "a suffix of document 004", Fields(|_| vec![raw("size", "size=60Mib")])),
    way(70, "a suffix of FMD", Fields(|_| vec![raw("size", "size=4K")])),
    way(70, "a hex size", Fields(|_| vec![raw("size", "size=0x1000")])),
    way(70, "a size below 0", Fields(|_| vec![raw("size", "size=-4096")])),
    way(70, "a size of 2^64", Fields(|_| vec![raw("size", "size=18446744073709551616")])),
    way(70, "a size of 2^64 by KiB", Fields(|_| vec![raw("size", "size=18014398509481984KiB")])),
    way(70, "a start of 2^64 by MiB", Fields(|_| vec![raw("start", "start=17592186044416MiB")])),
    way(70, "a start of 2^64 by GiB", Fields(|_| vec![raw("start", "start=17179869184GiB")])),
    way(70, "an empty start", Fields(|_| vec![raw("start", "start=")])),
    way(70, "an empty name", Fields(|_| vec![raw("name", "name=")])),
    way(70, "a name of 37 bytes", Fields(|_| vec![field("name", "n".repeat(37))])),
    way(70, "a name with 20 hex", Fields(|_| vec![raw("name", "name=a b")])),
    way(70, "a name with 7F hex", Fields(|_| vec![raw("name", "name=a\x7F")])),
    way(70, "an empty GUID", Fields(|_| vec![raw("uuid", "uuid=")])),
    way(70, "a bad GUID", Fields(|_| vec![raw("uuid", "uuid=11111111-2222-3333-4444_555555555556")])),
    way(70, "a GUID by a short name", Fields(|_| vec![raw("uuid", "uuid=data")])),
    // b4.
    way(70, "a blank between fields", Fields(|_| vec![raw("extra", " bootable")])),
    way(70, "an empty field", Fields(|_| vec![raw("extra", ",")])),
    way(70, "a name twice in a partition", Fields(|_| vec![raw("extra", "name=c")])),
    way(70, "a size twice", Fields(|site| vec![("extra", format!("size={}", site.bytes(1)))])),
    way(70, "a uuid twice", Fields(|_| vec![raw("extra", "uuid=11111111-2222-3333-4444-555555555559")])),
    way(70, "bootable twice", Fields(|_| vec![raw("extra", "bootable,bootable")])),
    way(70, "two last semicolons", End(";;")),
    way(70, "LF at the end", End("\n")),
    way(70, "a semicolon and LF at the end", End(";\n")),
    way(70, "a comma at the end", End(",")),
    way(70, "an empty partition", Between(";;")),
    way(70, "LF between partitions", Between(";\n")),
    way(70, "a blank between partitions", Between("; ")),
    way(70, "a comma between partitions", Between(",")),
    // b10.
    way(3, "a disk GUID of zeros", Disk("uuid_disk=00000000-0000-0000-0000-000000000000")),
    way(71, "a size of a byte more", Fields(|site| vec![field("size", site.bytes(1) + 1)])),
    way(71, "a size of half a block", Fields(|site| vec![field("size", site.bytes(1) / 2)])),
    way(71, "a size of 2^64-1", Fields(|_| vec![field("size", u64::MAX)])),
    way(71, "a start of a byte more", Fields(|site| vec![field("start", site.start(100) + 1)])),
    way(71, "a start of half a block more", Fields(|site| vec![field("start", site.start(100) + site.bytes(1) / 2)])),
    way(72, "a start of 0", Fields(|_| vec![field("start", 0)])),
    way(72, "a start before the usable blocks", Fields(|site| vec![field("start", site.start(0) - site.bytes(1))])),
    way(72, "a start behind the usable blocks", Fields(|site| vec![field("start", site.bytes(site.n) - site.start(0) + site.bytes(1))])),
    way(72, "a start behind the disk", Fields(|site| vec![field("start", site.bytes(site.n))])),
    way(72, "the last start below 2^64", Fields(|site| vec![field("start", u64::MAX / site.bytes(1) * site.bytes(1))])),
    way(72, "a start that is taken", Again(|site| vec![field("start", site.start(FIRST_START))])),
    way(72, "a start in a partition's last block", Again(|site| vec![field("start", site.start(FIRST_START + FIRST_BLOCKS - 1))])),
    way(20, "a size of 0 before the last", Fields(|_| vec![field("size", 0)])),
    way(20, "a size of 0 KiB before the last", Fields(|_| vec![raw("size", "size=00KiB")])),
    way(27, "an alignment of 3", Alignment(3)),
    way(27, "an alignment of 0", Alignment(0)),
    way(27, "an alignment of 2^32+8", Alignment((1 << 32) + 8)),
    way(21, "a type of zeros", Fields(|_| vec![field("type", ZERO)])),
    way(22, "a GUID of zeros", Fields(|_| vec![field("uuid", ZERO)])),
    way(22, "a GUID twice", Again(|_| vec![field("uuid", FIRST_UUID)])),
    way(26, "a name twice", Again(|_| vec![field("name", FIRST_NAME)])),
    way(24, "the 129th partition", Many),
    way(25, "more blocks than the disk has", Fields(|site| vec![field("size", site.bytes(site.n))])),
    way(25, "2^64 less a block", Fields(|site| vec![field("size", u64::MAX - site.bytes(1) + 1)])),
];

/// A cell for each way; a string is told blocks of neither size under one name alone.
pub const CELLS: &[Cell] = &{
    const OTHER_BLOCKS: usize = 3;
    let mut cells = [Cell::Answer(0); WAYS.len() - OTHER_BLOCKS];
    let mut k = OTHER_BLOCKS;
    while k < WAYS.len() {
        cells[k - OTHER_BLOCKS] = Cell::By(WAYS[k].number, WAYS[k].name);
        k += 1;
    }
    cells
};
