/// The rows of the refusal table, by what holds.
#[derive(Clone, Copy, Debug, PartialEq, Eq)]
pub enum Row {
    BlockSize,
    WrongLength,
    BadBlockCount,
    ZeroDiskGuid,
    NoGoodCopy,
    NotSame,
    NoSuchSlot,
    UnusedSlot,
    ZeroSize,
    Alignment,
    ZeroType,
    UniqueTaken,
    BadName,
    NameTaken,
    AttributeBits,
    NoSlot,
    NoRoom,
    NotGuidText,
    ImageLength,
    NoSignature,
    NoGoodMap,
    /// The same three of the new image, in a carry.
    NewImageLength,
    NewNoSignature,
    NewNoGoodMap,
    AreaMissing,
    OtherSize,
    SharedByte,
    OnFmap,
    TextTooLong,
    /// The first fault in a layout text; it is one of the next five, which has the number.
    InText,
    OutOfGrammar,
    BadNumber,
    BadLayoutName,
    TooMany,
    BadFlag,
    NameTwice,
    CbfsOnParent,
    Undecided,
    DoesNotFit,
    NoFmap,
    StringForm,
    NotWholeBlocks,
    StartTaken,
    /// No row of the table: no such area.
    Nothing,
}

/// What a refusal returns and leaves.
#[derive(Clone, Copy, Debug)]
pub struct RefusalRules {
    /// R4 to R24, l7, e5, a4, k6, b6, b10; 255 for the answer that no area is there.
    pub numbers: [(Row, u32); 43],
    /// R1: how many bytes of an output buffer a refusal zeroes.
    pub zeroes: usize,
    /// R1, "its number alone": a refusal sets the other answers to zero.
    pub zeroes_answers: bool,
}

impl RefusalRules {
    /// Gives a row another number.
    pub fn renumber(&mut self, row: Row, number: u32) {
        self.numbers.iter_mut().filter(|(of, _)| *of == row).for_each(|cell| cell.1 = number);
    }
}

pub const REFUSALS: RefusalRules = RefusalRules {
    numbers: [
        (Row::BlockSize, 6),
        (Row::WrongLength, 1),
        (Row::BadBlockCount, 2),
        (Row::ZeroDiskGuid, 3),
        (Row::NoGoodCopy, 10),
        (Row::NotSame, 11),
        (Row::NoSuchSlot, 12),
        (Row::UnusedSlot, 13),
        (Row::ZeroSize, 20),
        (Row::Alignment, 27),
        (Row::ZeroType, 21),
        (Row::UniqueTaken, 22),
        (Row::BadName, 23),
        (Row::NameTaken, 26),
        (Row::AttributeBits, 28),
        (Row::NoSlot, 24),
        (Row::NoRoom, 25),
        (Row::NotGuidText, 30),
        (Row::ImageLength, 40),
        (Row::NoSignature, 41),
        (Row::NoGoodMap, 42),
        (Row::NewImageLength, 40),
        (Row::NewNoSignature, 41),
        (Row::NewNoGoodMap, 42),
        (Row::AreaMissing, 60),
        (Row::OtherSize, 61),
        (Row::SharedByte, 62),
        (Row::OnFmap, 63),
        (Row::TextTooLong, 50),
        (Row::OutOfGrammar, 51),
        (Row::BadNumber, 52),
        (Row::BadLayoutName, 53),
        (Row::NameTwice, 54),
        (Row::TooMany, 55),
        (Row::BadFlag, 56),
        (Row::CbfsOnParent, 56),
        (Row::Undecided, 57),
        (Row::DoesNotFit, 58),
        (Row::NoFmap, 59),
        (Row::StringForm, 70),
        (Row::NotWholeBlocks, 71),
        (Row::StartTaken, 72),
        (Row::Nothing, 255),
    ],
    zeroes: 0,
    zeroes_answers: false,
};
