//! Layout strings with planted ways of refusal, and the number that the rules' order gives them.

use super::ways::{Field, Plant, Site, Way, FIRST_BLOCKS, FIRST_NAME, FIRST_START, FIRST_UUID};
use crate::gpt::call::Call;
use crate::gpt::disk::Disk;
use crate::run::{Lent, Run};
use testkit::disk::Shape;
use testkit::strings::{guid, lengthened, numbered_guid};

/// The rows of a partition in their order.
const ROWS: [u32; 9] = [71, 72, 20, 27, 21, 22, 26, 24, 25];
const SLOTS: usize = 128;
/// Usable blocks of the disk.
const USABLE: u64 = 300;

/// A call that the rules refuse with this number, or accept.
pub struct Draft {
    pub disk: Disk,
    pub call: Call,
    pub number: u32,
}

/// Where a way stands in the order of b10; what is smaller comes first.
#[derive(Clone, Copy, PartialEq, Eq, PartialOrd, Ord)]
enum Rank {
    BlockSize,
    Lengths,
    BlockCount,
    Text,
    DiskGuid,
    /// By the partition's place in the string and by its row.
    Partition(usize, usize),
}

struct Sketch {
    site: Site,
    told_block: u64,
    told_blocks: u64,
    alignment: u64,
    lengths: [usize; 2],
    whole: Option<&'static str>,
    disk: String,
    /// Whether a partition stands before the planted ones.
    has_first: bool,
    partitions: Vec<Vec<Field>>,
    many: Vec<usize>,
    between: &'static str,
    end: &'static str,
    long: Option<usize>,
    ranks: Vec<(Rank, u32)>,
}

/// The ways that are of a partition stand in partitions of their own, in their order.
pub fn apart(run: &mut Run, shape: Shape, ways: &[&Way]) -> Draft {
    let mut sketch = Sketch::new(run, shape, true);
    for way in ways {
        if way.is_of_partition() {
            sketch.add_partition();
        }
        sketch.plant(way);
    }
    if sketch.partitions.is_empty() {
        sketch.add_partition();
    }
    sketch.drafted(run)
}

/// They stand in one partition, which is the first one of the string or has one before it; `None` where one partition can't
/// have them all.
pub fn together(run: &mut Run, shape: Shape, ways: &[&Way], first: bool) -> Option<Draft> {
    let mut sketch = Sketch::new(run, shape, !first);
    sketch.add_partition();
    let keys: Vec<&str> = ways.iter().flat_map(|way| keys(way, &sketch.site)).collect();
    let twice = |key: &&str| keys.iter().filter(|other| *other == key).count() > 1;
    if keys.iter().any(twice) {
        return None;
    }
    ways.iter().for_each(|way| sketch.plant(way));
    Some(sketch.drafted(run))
}

/// The fields that a way sets.
fn keys(way: &Way, site: &Site) -> Vec<&'static str> {
    match way.plant {
        Plant::Fields(fields) | Plant::Again(fields) => {
            fields(site).into_iter().map(|(key, _)| key).collect()
        }
        _ => Vec::new(),
    }
}

impl Sketch {
    fn new(run: &mut Run, shape: Shape, has_first: bool) -> Sketch {
        let n = shape.least_blocks() - 1 + USABLE;
        Sketch {
            site: Site { shape, n },
            told_block: shape.block,
            told_blocks: n,
            alignment: run.random.pick(&[1, 8]),
            lengths: [shape.head_len, shape.tail_len],
            whole: None,
            disk: format!("uuid_disk={}", guid(&mut run.random)),
            has_first,
            partitions: Vec::new(),
            many: Vec::new(),
            between: ";",
            end: run.random.pick(&["", ";"]),
            long: None,
            ranks: Vec::new(),
        }
    }

    /// A good partition, in which the next ways stand.
    fn add_partition(&mut self) {
        let number = self.partitions.len();
        self.partitions.push(vec![
            ("name", format!("name=planted{number}")),
            ("size", format!("size={}", self.site.bytes(1))),
            ("uuid", format!("uuid={}", numbered_guid(0xA000 + number as u64))),
        ]);
    }

    fn plant(&mut self, way: &Way) {
        let place = self.partitions.len().saturating_sub(1);
        let row = ROWS.iter().position(|number| *number == way.number).unwrap_or(0);
        let in_partition = Rank::Partition(place + usize::from(self.has_first), row);
        let rank = match way.plant {
            Plant::Block(block) => {
                self.told_block = block;
                Rank::BlockSize
            }
            Plant::Length(buffer, change) => {
                let length = &mut self.lengths[usize::from(buffer == "tail")];
                *length = length.saturating_add_signed(change);
                Rank::Lengths
            }
            Plant::Blocks(blocks) => {
                self.told_blocks = blocks(self.site.shape);
                Rank::BlockCount
            }
            Plant::Alignment(alignment) => {
                self.alignment = alignment;
                Rank::Partition(0, row)
            }
            Plant::Whole(text) => {
                self.whole = Some(text);
                Rank::Text
            }
            Plant::Disk(text) => {
                self.disk = text.to_string();
                if way.number == 3 {
                    Rank::DiskGuid
                } else {
                    Rank::Text
                }
            }
            Plant::End(text) => {
                self.end = text;
                Rank::Text
            }
            Plant::Between(text) => {
                self.between = text;
                Rank::Text
            }
            Plant::Long(bytes) => {
                self.long = Some(bytes);
                Rank::Text
            }
            Plant::Many => {
                // So many multiples of 8 the disk does not have.
                if self.alignment == 8 {
                    self.alignment = 1;
                }
                self.many.push(place);
                in_partition
            }
            Plant::Fields(fields) | Plant::Again(fields) => {
                fields(&self.site).into_iter().for_each(|field| self.set(place, field));
                in_partition
            }
        };
        self.ranks.push((if way.number == 70 { Rank::Text } else { rank }, way.number));
    }

    fn set(&mut self, place: usize, (key, text): Field) {
        let fields = &mut self.partitions[place];
        fields.retain(|(other, _)| key == "extra" || *other != key);
        if !text.is_empty() {
            fields.push((key, text));
        }
    }

    fn drafted(self, run: &mut Run) -> Draft {
        let number = self.ranks.iter().min().map_or(0, |(_, number)| *number);
        let mut disk = Disk::random(self.site.shape, self.told_blocks, &mut run.random);
        let [head, tail] = self.lengths;
        if head != self.site.shape.head_len {
            disk.head = Lent::of_length(head, &mut run.random);
        }
        if tail != self.site.shape.tail_len {
            disk.tail = Lent::of_length(tail, &mut run.random);
        }
        disk.block = self.told_block;
        let call = Call::Build { alignment: self.alignment, text: self.text(run).into_bytes() };
        Draft { disk, call, number }
    }

    fn text(&self, run: &mut Run) -> String {
        if let Some(text) = self.whole {
            return text.to_string();
        }
        let (start, size) = (self.site.start(FIRST_START), self.site.bytes(FIRST_BLOCKS));
        let first = format!("start={start},name={FIRST_NAME},size={size},uuid={FIRST_UUID}");
        let mut parts: Vec<String> = Some(first).filter(|_| self.has_first).into_iter().collect();
        for (place, fields) in self.partitions.iter().enumerate() {
            if self.many.contains(&place) {
                parts.extend((parts.len()..SLOTS).map(|number| self.filler(number)));
            }
            let mut fields: Vec<&str> = fields.iter().map(|(_, text)| text.as_str()).collect();
            let by = run.random.below(fields.len());
            fields.rotate_left(by);
            parts.push(fields.join(","));
        }
        let last = format!("name=last,size={},uuid={}", self.site.bytes(1), numbered_guid(0xB000));
        let text = format!("{};{}{}{last}{}", self.disk, parts.join(";"), self.between, self.end);
        match self.long {
            Some(len) => lengthened(&text, len),
            None => text,
        }
    }

    /// A partition of one block in few bytes.
    fn filler(&self, number: usize) -> String {
        let (size, uuid) = (self.site.bytes(1), numbered_guid(number as u64));
        format!("name={number:X},size={size},uuid={uuid}")
    }
}
