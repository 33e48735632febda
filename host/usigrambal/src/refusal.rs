//! The refusals of the library by number, name and words, as include/usigrambal.h has them.

use crate::Refused;
use std::error::Error;
use std::fmt;

/// The enum, and what each of its cases is, from one list.
macro_rules! refusals {
    ($($number:literal $case:ident $words:literal)*) => {
        /// Why the library refuses a call (rules R4 to R24); each case has the number that the C interface answers.
        #[derive(Clone, Copy, Debug, PartialEq, Eq, Hash, PartialOrd, Ord)]
        #[repr(u32)]
        pub enum Refusal {
            $(#[doc = $words] $case = $number,)*
        }

        impl Refusal {
            /// Every refusal, by ascending number.
            pub const ALL: &'static [Refusal] = &[$(Refusal::$case),*];

            pub const fn number(self) -> u32 {
                self as u32
            }

            /// The refusal with that number, if there is one.
            pub const fn from_number(number: u32) -> Option<Refusal> {
                match number {
                    $($number => Some(Refusal::$case),)*
                    _ => None,
                }
            }

            /// What the number says.
            pub const fn words(self) -> &'static str {
                match self {
                    $(Refusal::$case => $words,)*
                }
            }
        }
    };
}

refusals! {
    1 WrongLength "a lent buffer has a wrong length"
    2 BlockCount "the number of blocks is outside its range"
    3 NoDiskGuid "the disk GUID is all zero"
    6 BlockSize "the block size is neither 512 nor 4096"
    10 NeitherGood "neither GPT copy is good"
    11 NotTheSame "the GPT copies are not both good and the same"
    12 NoSuchSlot "the partition number is not 1 to 128"
    13 SlotUnused "the slot is unused"
    20 NoSize "the size is zero"
    21 NoType "the type GUID is zero"
    22 BadUniqueGuid "the unique GUID is zero or already in a used slot"
    23 BadPartitionName "the name has a nonzero unit after a zero one"
    24 NoUnusedSlot "no unused slot"
    25 NoRoom "no room"
    26 PartitionNameTaken "the name is already in another used slot"
    27 Alignment "the alignment is not 1, 8 or 2048 blocks"
    28 AttributeBits "an attribute bit is set that the rule wants zero"
    30 NotAGuid "not a GUID text"
    40 ImageLength "the image length is outside its range"
    41 NoSignature "the signature of a map stands nowhere"
    42 NoGoodMap "no good map"
    50 TextTooLong "the layout text is too long"
    51 OutOfGrammar "the text is out of grammar"
    52 BadNumber "a bad number"
    53 BadName "a bad name"
    54 NameTwice "a section name is used twice"
    55 TooMany "too many sections or levels"
    56 BadFlag "an unknown or repeated flag, or CBFS on a section with children"
    57 Undecided "the size of a section is undecided"
    58 DoesNotFit "a section does not fit"
    59 NoMapSection "no section FMAP, or it has children or is too small"
    60 AreaMissing "a preserved area is missing in the new map"
    61 AreaOtherSize "a preserved area has another size in the new map"
    62 AreasShare "areas to be carried share a byte"
    63 AreaOnMap "an area to be carried shares a byte with area FMAP of the new map"
    70 StringForm "the layout string is out of form"
    71 NotWholeBlocks "a start or a size is not a whole number of blocks"
    72 StartTaken "the start block is taken or not usable"
    255 NoSuchArea "the map has no such area"
}

impl fmt::Display for Refusal {
    fn fmt(&self, f: &mut fmt::Formatter<'_>) -> fmt::Result {
        write!(f, "{}: {}", self.number(), self.words())
    }
}

impl Error for Refusal {}

/// What a call of the C interface answered, as a `Result`.
pub(crate) fn accepted(answer: u32) -> Result<(), Refused> {
    match answer {
        0 => Ok(()),
        number => match Refusal::from_number(number) {
            Some(refusal) => Err(refusal.into()),
            None => unreachable!("the library answered {number}, which is no refusal"),
        },
    }
}

#[cfg(test)]
mod tests {
    use super::*;

    #[test]
    fn zero_is_acceptance_and_any_other_answer_its_refusal() {
        assert_eq!(accepted(0), Ok(()));
        for refusal in Refusal::ALL {
            assert_eq!(accepted(refusal.number()).unwrap_err().refusal, *refusal);
        }
        assert_eq!(Refusal::from_number(0), None);
        assert_eq!(Refusal::from_number(29), None);
    }

    #[test]
    fn a_refusal_reads_as_number_and_words() {
        assert_eq!(Refusal::NotAGuid.to_string(), "30: not a GUID text");
        assert_eq!(Refusal::WrongLength.to_string(), "1: a lent buffer has a wrong length");
    }
}
