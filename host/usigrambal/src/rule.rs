//! The rules of a flash map by number, name and words, as include/usigrambal.h has them.

use std::fmt;

/// The enum, and what each of its cases is, from one list.
macro_rules! rules {
    ($($number:literal $case:ident $words:literal)*) => {
        /// A rule of a map (rules M1 to M8), in the order in which they are judged.
        #[derive(Clone, Copy, Debug, PartialEq, Eq, Hash, PartialOrd, Ord)]
        #[repr(u64)]
        pub enum Rule {
            $(#[doc = $words] $case = $number,)*
        }

        impl Rule {
            /// Every rule, in the order in which they are judged.
            pub const ALL: &'static [Rule] = &[$(Rule::$case),*];

            pub const fn number(self) -> u64 {
                self as u64
            }

            /// The rule with that number, if there is one.
            pub const fn from_number(number: u64) -> Option<Rule> {
                match number {
                    $($number => Some(Rule::$case),)*
                    _ => None,
                }
            }

            /// How the rule is broken.
            pub const fn words(self) -> &'static str {
                match self {
                    $(Rule::$case => $words,)*
                }
            }
        }
    };
}

rules! {
    1 Signature "the eight signature bytes do not stand there"
    2 HeaderEnd "the header does not end in the image"
    3 Major "the major version is not 1"
    4 Minor "the minor version is neither 0 nor 1"
    5 ImageSize "the image size in the map is not the length of the image"
    6 NoArea "the map has no area"
    7 TooManyAreas "the map has more than 128 areas"
    8 MapEnd "the map does not end in the image"
    9 Name "the name of the map is not 1 to 31 bytes of 21 to 7E hex and then zeros"
    10 AreaSize "an area has no byte"
    11 AreaEnd "an area does not end in the image"
    12 AreaName "the name of an area is not 1 to 31 bytes of 21 to 7E hex and then zeros"
    13 MapArea "no area FMAP starts at the map and holds all of it"
    14 SameName "two areas have one name"
    15 Crossing "two areas share bytes, and neither lies in the other"
}

impl Rule {
    /// How the map at that position breaks the rule, with what stands there where that is one number: `minor version 2`.
    /// Of a map that does not break it, what it says means nothing.
    pub fn found(self, image: &[u8], position: u64) -> String {
        let byte = |at: usize| {
            position.checked_add(at as u64).and_then(|at| image.get(usize::try_from(at).ok()?)).copied()
        };
        let number = |at: usize, len: usize| {
            (at..at + len).rev().fold(0, |n: u64, at| n << 8 | u64::from(byte(at).unwrap_or(0)))
        };
        match self {
            Rule::Major => format!("major version {}", number(8, 1)),
            Rule::Minor => format!("minor version {}", number(9, 1)),
            Rule::ImageSize => {
                format!("image size {} in the map, and the image has {} bytes", number(18, 4), image.len())
            }
            Rule::TooManyAreas => format!("{} areas, more than 128", number(54, 2)),
            _ => self.words().to_string(),
        }
    }
}

impl fmt::Display for Rule {
    fn fmt(&self, f: &mut fmt::Formatter) -> fmt::Result {
        write!(f, "{}", self.words())
    }
}
