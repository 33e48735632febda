use super::super::Span;

/// Bits of the attributes, by their numbers; the lowest one is bit 0.
#[derive(Clone, Copy, Debug, PartialEq, Eq)]
pub struct Bits {
    pub first: u32,
    pub last: u32,
}

/// The two rules about attribute bits, as one call takes them: k1 and k2 of the sentences of request k of document 02.
#[derive(Clone, Copy, Debug)]
pub struct BitRules {
    /// k1: the bits that each rule wants zero.
    pub present: Bits,
    pub earlier: Bits,
    /// k2: the numbers that name the present rule; every other one names the earlier rule.
    pub named_present: &'static [u64],
    /// k2: the bits of the number that names the rule.
    pub named_bits: u64,
    /// k1: of these bits so many must be set to offend.
    pub offending: usize,
    /// k1: by a slip, bits are counted from the highest one.
    pub from_highest: bool,
}

/// What an add judges.
#[derive(Clone, Copy, Debug, PartialEq, Eq)]
pub enum AddJudges {
    Given,
    /// By a slip, those of used entries too, or what the new slot has already.
    TableToo,
    SlotToo,
}

/// The entries that a check goes by.
#[derive(Clone, Copy, Debug, PartialEq, Eq)]
pub enum Checked {
    Used,
    /// By a slip, those of the backup where it is good, or of either copy.
    Backup,
    Either,
}

/// What a check answers of the entries that offend.
#[derive(Clone, Copy, Debug, PartialEq, Eq)]
pub enum Offender {
    First,
    /// By a slip.
    Last,
    Count,
    Whether,
}

/// Attribute bits in adding and in a check of a table: k1 to k3.
#[derive(Clone, Copy, Debug)]
pub struct AttributeRules {
    pub in_add: BitRules,
    pub in_check: BitRules,
    pub add_judges: AddJudges,
    /// k3: the copy, and the slots by index.
    pub checked: Checked,
    pub slots: Span,
    /// D5: where a check reads the attributes of an entry.
    pub check_reads_at: usize,
    /// k3, "the first used slot that offends, or 0": `None` leaves the answer as it was.
    pub answers: Offender,
    pub first_slot: u64,
    pub none_answers: Option<u64>,
}

const BITS: BitRules = BitRules {
    present: Bits { first: 3, last: 47 },
    earlier: Bits { first: 1, last: 47 },
    named_present: &[0],
    named_bits: u64::MAX,
    offending: 1,
    from_highest: false,
};

pub const ATTRIBUTES: AttributeRules = AttributeRules {
    in_add: BITS,
    in_check: BITS,
    add_judges: AddJudges::Given,
    checked: Checked::Used,
    slots: Span { at: 0, len: 128 },
    check_reads_at: 48,
    answers: Offender::First,
    first_slot: 1,
    none_answers: Some(0),
};
