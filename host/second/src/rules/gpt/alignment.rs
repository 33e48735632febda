/// What is wrong in the starts of one alignment.
#[derive(Clone, Copy, Debug, PartialEq, Eq)]
pub enum AlignmentSlip {
    /// A run's first block is passed over though it is a multiple.
    NextMultiple,
    RoundedDown,
    /// The sum that rounding up takes has 32 bits.
    RoundedIn32Bits,
    /// Blocks are counted from the first usable one.
    FromFirstUsable,
    /// The alignment counts blocks of so many bytes, whatever the block size.
    BlocksOf(usize),
    /// A start in a later run is not rounded.
    FirstRunAlone,
    /// A start in the first run is not rounded.
    LaterRunsAlone,
    /// The free blocks from a multiple on are one more than there are, or one less.
    OneMore,
    OneLess,
    /// They are as many as from the run's first block on.
    WholeRun,
    /// They are as many as if the multiple were as far from the run's first block as one can be.
    LeastOfRun,
    /// The row for room goes by the runs.
    RowByRuns,
}

/// Where a new partition may start: e1, e2, e4 and e5 of the sentences of request e of document 02.
#[derive(Clone, Copy, Debug)]
pub struct AlignmentRules {
    /// e5: the alignments that are taken; e2: what each is passed on as.
    pub taken: &'static [(u64, u64)],
    /// e5: the bits of the alignment that are judged.
    pub judged_bits: u64,
    /// e1, e4: the alignment and what is wrong under it.
    pub slip: Option<(u64, AlignmentSlip)>,
}

pub const ALIGNMENT: AlignmentRules =
    AlignmentRules { taken: &[(1, 1), (8, 8), (2048, 2048)], judged_bits: u64::MAX, slip: None };
