use super::super::Span;

/// The rules about used entries.
#[derive(Clone, Copy, Debug, PartialEq, Eq)]
pub enum UsedIn {
    /// D7.
    ZeroUnique,
    Range,
    EqualUniques,
    SharedBlocks,
    /// D12.
    FreeCounts,
    /// R9, by the call.
    Delete,
    Rename,
    Resize,
    /// R11.
    UniqueTaken,
    /// a1, by the call.
    NameInAdd,
    NameInRename,
    /// k3.
    Check,
    /// R13.
    NoSlot,
    NoRoom,
    /// D15.
    Slot,
    Start,
    /// D18.
    ResizeRoom,
}

/// What is about all bytes of the entries, whether used or not.
#[derive(Clone, Copy, Debug, PartialEq, Eq)]
pub enum WholeIn {
    /// D1.
    EntriesCrc,
    /// D10, f3.
    Comparison,
    /// D24.
    Repair,
}

/// Unused entries: D6, and f1 to f4 of the sentences of request f of document 02. One with a nonzero byte is stale.
#[derive(Clone, Copy, Debug)]
pub struct UnusedRules {
    /// D6, f1: an entry is unused when it is zero here.
    pub by: Span,
    /// f1, f2: by a slip, the one rule that takes a stale entry for a used one.
    pub stale_used_in: Option<UsedIn>,
    /// f3: by a slip, what takes the bytes of a stale entry for zeros.
    pub stale_zero_in: Option<WholeIn>,
    /// f4: an add leaves the slot's bytes here, where those of the new entry are zero.
    pub add_keeps: Span,
}

pub const UNUSED: UnusedRules = UnusedRules {
    by: Span { at: 0, len: 16 },
    stale_used_in: None,
    stale_zero_in: None,
    add_keeps: Span { at: 0, len: 0 },
};
