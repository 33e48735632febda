//! A refused call: the refusal, and the argument that it is about.

use crate::attributes::bits_text;
use crate::{AttributeRule, Name, Refusal};
use std::error::Error;
use std::fmt;

/// The most bytes of an image, of a layout text and of a layout string (rules Q4, Q5, b1).
pub const IMAGE_MAX: usize = 16_777_216;
pub const TEXT_MAX: usize = 32_768;
pub const STRING_MAX: usize = 8_192;

/// Why a call was refused, and of what.
#[derive(Clone, Copy, Debug, PartialEq, Eq)]
pub struct Refused {
    pub refusal: Refusal,
    detail: Option<Detail>,
}

/// The argument that a refusal is about.
#[derive(Clone, Copy, Debug, PartialEq, Eq)]
pub(crate) enum Detail {
    /// A disk with blocks of so many bytes.
    BlockBytes(u64),
    /// A disk of so many blocks.
    Blocks(u64),
    Slot(u64),
    /// An image of so many bytes.
    Bytes(usize),
    /// One of two images.
    Image(&'static str),
    /// A layout text of so many bytes.
    Text(usize),
    /// A layout string of so many bytes.
    LayoutString(usize),
    /// A partition of so many blocks to be placed, at a multiple of so many.
    NewSize(u64, u64),
    /// An alignment of so many blocks.
    Alignment(u64),
    /// A partition to be given so many blocks.
    SlotSize(u64, u64),
    /// The name that a partition is to have.
    Name(Name),
    /// The attributes that a partition is to have, and the rule that they offend.
    Attributes(u64, AttributeRule),
    /// An image of so many bytes, where the layout text states so many.
    Stated(usize, u64),
    /// The name of an area to be carried, and zeros.
    Area([u8; 32]),
}

impl Refused {
    pub fn number(self) -> u32 {
        self.refusal.number()
    }

    pub fn words(self) -> &'static str {
        self.refusal.words()
    }

    /// What the number says, and of what.
    pub fn sentence(self) -> String {
        match self.detail {
            Some(detail) => format!("{}: {detail}", self.words()),
            None => self.words().to_string(),
        }
    }

    /// The refusal with its argument, where it is about that argument.
    pub(crate) fn about(self, details: &[Detail]) -> Refused {
        let detail = details.iter().copied().find(|detail| detail.fits(self.refusal));
        Refused { detail, ..self }
    }
}

impl From<Refusal> for Refused {
    fn from(refusal: Refusal) -> Refused {
        Refused { refusal, detail: None }
    }
}

impl Detail {
    fn fits(self, refusal: Refusal) -> bool {
        match self {
            Detail::BlockBytes(_) => refusal == Refusal::BlockSize,
            Detail::Blocks(_) => refusal == Refusal::BlockCount,
            Detail::Bytes(_) => refusal == Refusal::ImageLength,
            Detail::Text(_) => refusal == Refusal::TextTooLong,
            Detail::LayoutString(len) => refusal == Refusal::StringForm && len > STRING_MAX,
            Detail::Image(_) => {
                matches!(refusal, Refusal::ImageLength | Refusal::NoSignature | Refusal::NoGoodMap)
            }
            Detail::Slot(_) => matches!(refusal, Refusal::NoSuchSlot | Refusal::SlotUnused),
            Detail::NewSize(..) | Detail::SlotSize(..) => refusal == Refusal::NoRoom,
            Detail::Alignment(_) => refusal == Refusal::Alignment,
            Detail::Name(_) => refusal == Refusal::PartitionNameTaken,
            Detail::Attributes(..) => refusal == Refusal::AttributeBits,
            Detail::Stated(..) => refusal == Refusal::WrongLength,
            Detail::Area(_) => matches!(refusal, Refusal::AreaMissing | Refusal::AreaOtherSize),
        }
    }
}

impl fmt::Display for Detail {
    fn fmt(&self, f: &mut fmt::Formatter<'_>) -> fmt::Result {
        match self {
            Detail::BlockBytes(bytes) => write!(f, "{bytes} byte{}", s(*bytes)),
            Detail::Blocks(n) | Detail::Alignment(n) => write!(f, "{n} block{}", s(*n)),
            Detail::Bytes(len) => bytes(f, *len, IMAGE_MAX),
            Detail::Text(len) => bytes(f, *len, TEXT_MAX),
            Detail::LayoutString(len) => bytes(f, *len, STRING_MAX),
            Detail::Image(which) => write!(f, "the {which} image"),
            Detail::Slot(slot) => write!(f, "slot {slot}"),
            Detail::NewSize(size, 1) => write!(f, "no run of {size} free block{}", s(*size)),
            Detail::NewSize(size, alignment) => {
                write!(f, "no multiple of {alignment} has {size} free block{} from it on", s(*size))
            }
            Detail::SlotSize(slot, size) => {
                write!(f, "slot {slot} cannot have {size} block{}", s(*size))
            }
            Detail::Name(name) => write!(f, "\"{name}\""),
            Detail::Attributes(attributes, rule) => {
                write!(f, "{} under the {rule} rule", bits_text(&rule.offending(*attributes)))
            }
            Detail::Stated(len, stated) => {
                f.write_str("the image has ")?;
                bytes(f, *len, IMAGE_MAX)?;
                write!(f, ", the layout states {stated}")
            }
            Detail::Area(name) => name
                .iter()
                .take_while(|byte| **byte != 0)
                .try_for_each(|byte| write!(f, "{}", char::from(*byte))),
        }
    }
}

/// A caller may cut what is too long, so that its length is not told.
fn bytes(f: &mut fmt::Formatter<'_>, len: usize, max: usize) -> fmt::Result {
    if len > max {
        return write!(f, "more than {max} bytes");
    }
    write!(f, "{len} byte{}", s(len as u64))
}

/// The end of a noun of which there are so many.
fn s(count: u64) -> &'static str {
    if count == 1 {
        ""
    } else {
        "s"
    }
}

impl fmt::Display for Refused {
    fn fmt(&self, f: &mut fmt::Formatter<'_>) -> fmt::Result {
        write!(f, "{}: {}", self.number(), self.sentence())
    }
}

impl Error for Refused {}

#[cfg(test)]
mod tests {
    use super::*;

    fn refused(refusal: Refusal, details: &[Detail]) -> String {
        Refused::from(refusal).about(details).to_string()
    }

    #[test]
    fn a_refusal_names_the_argument_that_it_is_about() {
        let details = [Detail::Slot(3), Detail::SlotSize(3, 4096)];
        assert_eq!(refused(Refusal::SlotUnused, &details), "13: the slot is unused: slot 3");
        assert_eq!(refused(Refusal::NoRoom, &details), "25: no room: slot 3 cannot have 4096 blocks");
        assert_eq!(refused(Refusal::NoSize, &details), "20: the size is zero");
        let one = refused(Refusal::BlockCount, &[Detail::Blocks(1)]);
        assert_eq!(one, "2: the number of blocks is outside its range: 1 block");
        let bytes = refused(Refusal::BlockSize, &[Detail::BlockBytes(1024)]);
        assert_eq!(bytes, "6: the block size is neither 512 nor 4096: 1024 bytes");
    }

    /// Rule a1.
    #[test]
    fn a_name_that_is_taken_is_told() {
        let name = Name::new("scratch\n").unwrap();
        let taken = refused(Refusal::PartitionNameTaken, &[Detail::Slot(3), Detail::Name(name)]);
        assert_eq!(taken, "26: the name is already in another used slot: \"scratch\\n\"");
        let unused = refused(Refusal::SlotUnused, &[Detail::Slot(3), Detail::Name(name)]);
        assert_eq!(unused, "13: the slot is unused: slot 3");
    }

    /// Rule k6.
    #[test]
    fn attribute_bits_are_told_with_the_rule() {
        let told =
            |attributes, rule| refused(Refusal::AttributeBits, &[Detail::Attributes(attributes, rule)]);
        let words = "28: an attribute bit is set that the rule wants zero";
        let both = format!("{words}: bits 1 (no-block-io) and 2 (legacy-boot) under the earlier rule");
        assert_eq!(told(7, AttributeRule::Earlier), both);
        assert_eq!(told(15, AttributeRule::Present), format!("{words}: bit 3 under the present rule"));
        let all = format!("{words}: bits 3 to 47 under the present rule");
        assert_eq!(told(u64::MAX, AttributeRule::Present), all);
    }

    /// Rule e4: the longest run may be longer than the size that has no room at a multiple.
    #[test]
    fn room_is_told_with_the_alignment() {
        let details = |size, alignment| [Detail::NewSize(size, alignment), Detail::Alignment(alignment)];
        let no_room = |size, alignment| refused(Refusal::NoRoom, &details(size, alignment));
        assert_eq!(no_room(4096, 1), "25: no room: no run of 4096 free blocks");
        assert_eq!(no_room(1, 1), "25: no room: no run of 1 free block");
        assert_eq!(no_room(1, 8), "25: no room: no multiple of 8 has 1 free block from it on");
        assert_eq!(no_room(9, 2048), "25: no room: no multiple of 2048 has 9 free blocks from it on");
        let not_taken = refused(Refusal::Alignment, &details(1, 3));
        assert_eq!(not_taken, "27: the alignment is not 1, 8 or 2048 blocks: 3 blocks");
        assert_eq!(refused(Refusal::NoSize, &details(0, 3)), "20: the size is zero");
    }
}
