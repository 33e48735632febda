mod call;
mod carries;
mod faults;
mod images;
mod kinds;
mod variants;

use crate::run::Cell::{self, Answer, By, Rule};
use crate::topic::Topic;

pub const TOPIC: Topic = Topic {
    parts: &[
        ("fmap: no signature, or almost one", images::no_signature),
        ("fmap: buffers for an area", images::area_lengths),
        ("fmap: each rule broken alone", images::near_misses),
        ("fmap: each two rules broken", faults::each_two),
        ("fmap: a map that the image's end cuts, and no map", faults::ends),
        ("fmap: decoys below and above", images::decoys),
        ("fmap: cut off by the image's end", images::ends),
        ("fmap: 127 to 129 areas", images::many_areas),
        ("fmap: a map in a carried area", carries::map_in_area),
        ("fmap: carries, each two rows together", carries::each_two),
        ("fmap: carries", carries::any),
        ("fmap: each byte of a map", images::each_byte),
        ("fmap: good maps", images::good),
        ("fmap: large carries", carries::large),
        ("fmap: lengths of an image", images::lengths),
    ],
    cells: &[
        ("fmap_find", &[&[Answer(0)], MAP, kinds::FIND]),
        ("fmap_fault", &[&[Answer(0), Answer(40)], RULES]),
        ("fmap_area", &[&[Answer(0), Answer(1)], MAP, &[Answer(255)]]),
        ("fmap_named", &[&[Answer(0)], MAP, &[Answer(255)]]),
        ("fmap_carry", &[CARRY, kinds::CARRY]),
    ],
    at_least: ("fmap_find", 5_000),
    variants: variants::all,
    rules_to_break: variants::RULES_TO_BREAK,
};

const MAP: &[Cell] = &[Answer(40), Answer(41), Answer(42)];

const RULES: &[Cell] = &[
    Rule(0),
    Rule(1),
    Rule(2),
    Rule(3),
    Rule(4),
    Rule(5),
    Rule(6),
    Rule(7),
    Rule(8),
    Rule(9),
    Rule(10),
    Rule(11),
    Rule(12),
    Rule(13),
    Rule(14),
    Rule(15),
];

const CARRY: &[Cell] = &[
    Answer(0),
    By(40, "old"),
    By(41, "old"),
    By(42, "old"),
    By(40, "new"),
    By(41, "new"),
    By(42, "new"),
    Answer(60),
    Answer(61),
    Answer(62),
    Answer(63),
];
