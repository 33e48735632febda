use super::super::Span;

/// What is wrong in the question whether another used slot carries a name.
#[derive(Clone, Copy, Debug, PartialEq, Eq)]
pub enum NameSlip {
    /// Names are compared up to their first zero unit.
    UpToZero,
    /// ASCII letters of either case are the same.
    WithoutCase,
    /// Of each unit the low byte is compared, or the high one.
    LowBytes,
    HighBytes,
    /// A name is carried where another one begins with it, or where it begins with another one.
    BeginsAnother,
    AnotherBegins,
    /// The slots compared are those before the one that gets the name, or those behind it.
    SlotsBefore,
    SlotsBehind,
    /// What the slot has already may be given to it, whoever else carries it.
    OwnName,
    /// On a table that has a name twice, every name is taken.
    OfDoubles,
}

/// No two partitions of one name: a1 to a3 of the sentences of request a of document 02.
#[derive(Clone, Copy, Debug)]
pub struct NameRules {
    /// a1, "all 72 bytes": those of a name that are compared.
    pub compared: Span,
    /// a1: the slots whose names count, by index.
    pub slots: Span,
    /// a1, "another used slot": whether the slot that gets the name counts too.
    pub own_counts: bool,
    /// a2: a name is empty when it is zero here, and whether it may repeat then.
    pub empty_by: Span,
    pub empty_repeats: bool,
    /// a3: whether a copy with a name twice is good.
    pub doubles_good: bool,
    /// a1, a3.
    pub slip: Option<NameSlip>,
}

pub const NAMES: NameRules = NameRules {
    compared: Span { at: 0, len: 72 },
    slots: Span { at: 0, len: 128 },
    own_counts: false,
    empty_by: Span { at: 0, len: 72 },
    empty_repeats: true,
    doubles_good: true,
    slip: None,
};
