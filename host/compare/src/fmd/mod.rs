mod call;
mod draft;
mod edges;
mod faults;
mod texts;
mod variants;
mod ways;

use crate::run::Cell::{self, Answer};
use crate::topic::Topic;

pub const TOPIC: Topic = Topic {
    parts: &[
        ("fmd: each way of each refusal", faults::each),
        ("fmd: buffers of wrong lengths", faults::lengths),
        ("fmd: numbers", edges::numbers),
        ("fmd: names", edges::names),
        ("fmd: room for the map", edges::room),
        ("fmd: sections, levels and bytes at their most", edges::most),
        ("fmd: siblings in a small parent", edges::siblings),
        ("fmd: cut at every byte", texts::cut),
        ("fmd: drawn by the grammar", texts::drawn),
        ("fmd: two faults in one text, in both orders", faults::each_two),
        ("fmd: every byte at every token boundary", texts::each_byte),
        ("fmd: changed texts", texts::changed),
        ("fmd: large images", edges::large),
    ],
    cells: &[
        ("fmd", &[ways::CELLS]),
        ("fmd_read", &[ANSWERS]),
        ("fmd_records", &[ANSWERS]),
        ("fmd_write", &[ANSWERS]),
    ],
    at_least: ("fmd_read", 20_000),
    variants: variants::all,
    rules_to_break: variants::RULES_TO_BREAK,
};

const ANSWERS: &[Cell] = &[
    Answer(0),
    Answer(1),
    Answer(50),
    Answer(51),
    Answer(52),
    Answer(53),
    Answer(54),
    Answer(55),
    Answer(56),
    Answer(57),
    Answer(58),
    Answer(59),
];
