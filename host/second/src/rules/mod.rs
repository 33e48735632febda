mod crc;
mod fmap;
mod fmd;
mod gpt;
mod guid;
mod refusal;

pub use crc::{CrcRules, CRC};
pub use fmap::*;
pub use fmd::*;
pub use gpt::*;
pub use guid::{DigitRange, GuidRules, GUID};
pub use refusal::{RefusalRules, Row, REFUSALS};

/// The operands of the rules; each names the sentence that sets it.
#[derive(Clone, Copy, Debug)]
pub struct Rules {
    pub refusals: RefusalRules,
    pub crc: CrcRules,
    pub guid: GuidRules,
    pub gpt: GptRules,
    pub fmap: FmapRules,
    pub fmd: FmdRules,
}

pub const RULES: Rules = Rules { refusals: REFUSALS, crc: CRC, guid: GUID, gpt: GPT, fmap: FMAP, fmd: FMD };
