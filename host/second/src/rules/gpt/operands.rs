//! What an operand of the disk's rules can be.

/// A block, counted from the disk's first one or back from N.
#[derive(Clone, Copy, Debug)]
pub enum Place {
    FromStart(u64),
    FromEnd(u64),
}

impl Place {
    pub fn block(self, n: u64) -> u64 {
        match self {
            Place::FromStart(blocks) => blocks,
            Place::FromEnd(blocks) => n.saturating_sub(blocks),
        }
    }
}

/// What a field of a header or of block 0 holds.
#[derive(Clone, Copy, Debug)]
pub enum Holds {
    Bytes(&'static [u8]),
    Number(u64),
    FirstUsable,
    LastUsable,
    OwnBlock,
    OtherBlock,
    EntriesBlock,
    DiskGuid,
    HeaderCrc,
    EntriesCrc,
    /// The blocks of the record of block 0.
    RecordSize,
}

#[derive(Clone, Copy, Debug)]
pub struct Field {
    pub at: usize,
    pub len: usize,
    pub holds: Holds,
    /// Whether a copy is good only if the field holds that.
    pub judged: bool,
}

#[derive(Clone, Copy, Debug, PartialEq, Eq)]
pub enum Which {
    Primary,
    Backup,
}

/// Where a copy lies.
#[derive(Clone, Copy, Debug)]
pub struct CopyPlace {
    pub header: Place,
    pub entries: Place,
}

/// Where the fields of an entry stand.
#[derive(Clone, Copy, Debug)]
pub struct EntryFields {
    pub kind: usize,
    pub unique: usize,
    pub first: usize,
    pub last: usize,
    pub attributes: usize,
    pub name: usize,
}

/// What reading does not judge.
#[derive(Clone, Copy, Debug, PartialEq, Eq)]
pub enum Unjudged {
    Names,
    Attributes,
    /// Those that offend the present rule.
    AttributeBits,
    DiskGuid,
    Block0,
    HeaderTail,
}

#[derive(Clone, Copy, Debug, PartialEq, Eq)]
pub enum Slot {
    LowestUnused,
    HighestUnused,
    AfterLastUsed,
}

#[derive(Clone, Copy, Debug, PartialEq, Eq)]
pub enum Start {
    Lowest,
    Highest,
    InHighestRun,
    InShortestRun,
    InLongestRun,
}

/// What stands for a run where one must be long enough or the longest is asked.
#[derive(Clone, Copy, Debug, PartialEq, Eq)]
pub enum Longest {
    Run,
    AllRuns,
    FirstRun,
    LastRun,
}

/// The bytes after a repaired header, to the end of its block.
#[derive(Clone, Copy, Debug, PartialEq, Eq)]
pub enum Tail {
    Zero,
    Kept,
    Copied,
}

/// What an edit writes besides the entry and the two CRCs, or leaves out.
#[derive(Clone, Copy, Debug, PartialEq, Eq)]
pub enum EditSlip {
    HeaderTailsZeroed,
    Block0Written,
    PrimaryAlone,
    BackupAlone,
    EntriesCrcKept,
    HeaderCrcKept,
}
