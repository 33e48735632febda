//! Layout strings: those that are right, nearly right and damaged, and lists of calls on the disks that they became.

mod draft;
mod faults;
mod fields;
mod histories;
mod most;
mod places;
mod probe;
mod texts;
mod variants;
mod ways;

use crate::run::Cell::{self, Answer, By, On};
use crate::topic::Topic;

pub const TOPIC: Topic = Topic {
    parts: &[
        ("strings: each way of each refusal", faults::each),
        ("strings: numbers", fields::numbers),
        ("strings: fields", fields::fields),
        ("strings: GUIDs and types", fields::guids),
        ("strings: names", fields::names),
        ("strings: starts and sizes", places::starts),
        ("strings: gaps at multiples", places::gaps),
        ("strings: former contents", places::former),
        ("strings: N from the least to 2^32", places::block_counts),
        ("strings: partitions and bytes at their most", most::most),
        ("strings: lists of calls and their sums", histories::sums),
        ("strings: two faults in one partition", faults::each_two_in_one),
        ("strings: two faults in one string, in both orders", faults::each_two),
        ("strings: drawn", texts::drawn),
        ("strings: histories with damage", histories::damaged),
        ("strings: cut at every byte", texts::cut),
        ("strings: changed", texts::changed),
        ("strings: every byte at every sign", texts::each_byte),
    ],
    cells: &[
        ("gpt_build", &[BLOCK, ANSWERS, LENT, MET, ways::CELLS]),
        ("gpt_build at 4096", &[ANSWERS, LENT, MET, ways::CELLS]),
    ],
    at_least: ("gpt_build", 20_000),
    variants: variants::all,
    rules_to_break: variants::RULES_TO_BREAK,
};

/// Of blocks that have neither size.
const BLOCK: &[Cell] = &[Answer(6)];
const ANSWERS: &[Cell] = &[
    Answer(0),
    Answer(1),
    Answer(2),
    Answer(70),
    Answer(3),
    Answer(71),
    Answer(72),
    Answer(20),
    Answer(27),
    Answer(21),
    Answer(22),
    Answer(26),
    Answer(24),
    Answer(25),
];
const LENT: &[Cell] = &[By(1, "head"), By(1, "tail")];
const MET: &[Cell] = &[
    On(places::OPEN),
    On(places::OPEN_FROM_START),
    By(72, places::OPEN_FROM_START),
    By(25, places::OPEN),
    By(20, places::ZERO_BEFORE_LAST),
    On(places::UNALIGNED),
    By(72, places::STARTED),
    By(25, places::STARTED),
    On(places::AT_A_MULTIPLE),
    By(25, places::ROOM_BESIDE),
    On(places::ON_A_TABLE),
    On(most::PARTITIONS_128),
    By(24, most::PARTITIONS_129),
    On(most::BYTES_8192),
    By(70, most::BYTES_8193),
    On(most::ZEROS),
    On(histories::ON_A_LIST),
    By(72, histories::ON_A_LIST),
];
