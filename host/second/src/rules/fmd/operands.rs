//! What an operand of the layout language's rules can be.

/// Where a word's fault stands.
#[derive(Clone, Copy, Debug, PartialEq, Eq)]
pub enum WordFault {
    FirstByte,
    /// Where the word has ended.
    Behind,
}

/// Where an unfit sign or byte stands.
#[derive(Clone, Copy, Debug, PartialEq, Eq)]
pub enum Unfit {
    Itself,
    /// At the token before it.
    Before,
}

/// Where a section too deep stands.
#[derive(Clone, Copy, Debug, PartialEq, Eq)]
pub enum TooDeep {
    Name,
    /// At the brace that opens its list.
    Brace,
}

/// Which of a text's faults is given.
#[derive(Clone, Copy, Debug, PartialEq, Eq)]
pub enum FaultPick {
    First,
    Last,
    LowestNumber,
}

/// The parts of a section between its name and its braces; each may be left out.
#[derive(Clone, Copy, Debug, PartialEq, Eq)]
pub enum HeadPart {
    Flags,
    Offset,
    Size,
}

/// What a byte is that can stand in no word and is no blank and no sign.
#[derive(Clone, Copy, Debug, PartialEq, Eq)]
pub enum OtherByte {
    Fault,
    Blank,
}

/// By what a word after a name, flags or offset is a size.
#[derive(Clone, Copy, Debug, PartialEq, Eq)]
pub enum SizeBy {
    Digit,
    /// It is a number; else it is the next section's name.
    Number,
}

/// What may follow the last brace besides blanks and comments.
#[derive(Clone, Copy, Debug, PartialEq, Eq)]
pub enum Trailing {
    Nothing,
    Words,
    /// The text is not looked at any more.
    Anything,
}

#[derive(Clone, Copy, Debug, PartialEq, Eq)]
pub enum MissingOffset {
    PreviousEnd,
    PreviousStart,
    Zero,
}

/// What a missing size reaches to.
#[derive(Clone, Copy, Debug, PartialEq, Eq)]
pub enum Reach {
    NextOffset,
    ParentEnd,
    ImageEnd,
}

/// What the next sibling lacks where a size is undecided.
#[derive(Clone, Copy, Debug, PartialEq, Eq)]
pub enum Undecided {
    Offset,
    Size,
    OffsetAndSize,
    /// Nothing: a missing size with a next sibling is undecided.
    Nothing,
}

/// What a section must end within.
#[derive(Clone, Copy, Debug, PartialEq, Eq)]
pub enum Within {
    Parent,
    Image,
    Anything,
}

/// What is added to a section's offset.
#[derive(Clone, Copy, Debug, PartialEq, Eq)]
pub enum Above {
    ParentPosition,
    ParentOffset,
    Nothing,
}

#[derive(Clone, Copy, Debug, PartialEq, Eq)]
pub enum ListOrder {
    /// As in the text: children after their parent, before its next sibling.
    Text,
    ChildrenFirst,
    ByLevel,
    Reversed,
}

/// Which sections something counts.
#[derive(Clone, Copy, Debug, PartialEq, Eq)]
pub enum Counted {
    All,
    TopLevel,
    Leaves,
}

#[derive(Clone, Copy, Debug, PartialEq, Eq)]
pub enum MapAt {
    FmapPosition,
    FmapOffset,
    FmapEnd,
    ImageStart,
}

/// What the writer changes besides the map.
#[derive(Clone, Copy, Debug, PartialEq, Eq)]
pub enum MapSlip {
    OneByteMore,
    RestOfSection,
}

/// What becomes of the records that no section fills.
#[derive(Clone, Copy, Debug, PartialEq, Eq)]
pub enum Unused {
    Stay,
    Zeroed,
}

/// Which names are compared for 54.
#[derive(Clone, Copy, Debug, PartialEq, Eq)]
pub enum Compared {
    AllSections,
    Siblings,
    Neighbours,
    ImageToo,
}
