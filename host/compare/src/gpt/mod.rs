mod aligned;
mod attributes;
mod bits;
mod bytes;
pub mod call;
pub mod damage;
pub mod disk;
mod doubles;
pub mod histories;
mod name;
pub mod rows;
pub mod sample;
mod stale;
mod variants;

use crate::run::Cell::{self, Answer, By, On, State};
use crate::topic::Topic;

pub const TOPIC: Topic = Topic {
    parts: &[
        ("gpt: block 0 and header tails", bytes::unjudged),
        ("gpt: GUIDs of an entry", bytes::guids),
        ("gpt: each byte of a GUID", bytes::sparse_guids),
        ("gpt: each alignment", aligned::each_alignment),
        ("gpt: each attribute bit", attributes::each_rule),
        ("gpt: each row, and each two together", rows::each_two),
        ("gpt: names of other slots", doubles::each_name),
        ("gpt: tables with attribute bits", attributes::each_table),
        ("gpt: gaps at multiples", aligned::gaps),
        ("gpt: ranges of an entry", bytes::ranges),
        ("gpt: N outside its range", rows::each_block_count),
        ("gpt: another block size", rows::each_block_size),
        ("gpt: usable blocks at multiples", aligned::usable),
        ("gpt: stale entries", stale::each_call),
        ("gpt: each byte of a header", bytes::headers),
        ("gpt: each field of a header", bytes::header_fields),
        ("gpt: all slots stale", stale::all_slots),
        ("gpt: N from the least to 2^32", histories::block_counts),
        ("gpt: lists of calls and their sums", histories::ledger),
        ("gpt: each length", rows::each_length),
        ("gpt: each byte of an entry", bytes::entries),
        ("gpt: histories with damage", histories::damaged),
    ],
    cells: &[
        ("gpt_format", &[BLOCK, LENT, &[By(1, "guid"), Answer(3)]]),
        ("gpt_read", &[BLOCK, LENT, READ, STALE, OTHERS]),
        ("gpt_table", &[BLOCK, LENT, READ, STALE, OTHERS]),
        ("gpt_free", &[BLOCK, LENT, READ, STALE, OTHERS]),
        ("gpt_check", &[BLOCK, LENT, READ, STALE, OTHERS, BITS, CHECKED]),
        (
            "gpt_add",
            &[BLOCK, LENT, READ, NOT_SAME, NEW, SIZE, ALIGNED, NAME, GIVEN, BITS, ADDED, OTHERS, STALE_ADD],
        ),
        ("gpt_delete", &[BLOCK, LENT, READ, NOT_SAME, SLOT, STALE_SLOT, OTHERS]),
        ("gpt_rename", &[BLOCK, LENT, READ, NOT_SAME, SLOT, NAME, GIVEN, OWN, OTHERS, STALE_SLOT]),
        ("gpt_resize", &[BLOCK, LENT, READ, NOT_SAME, SLOT, SIZE, STALE_SLOT, OTHERS]),
        ("gpt_repair", &[BLOCK, LENT, READ, STALE, OTHERS]),
        ("gpt_format at 4096", &[LENT, &[By(1, "guid"), Answer(3)]]),
        ("gpt_read at 4096", &[LENT, READ, STALE, OTHERS]),
        ("gpt_table at 4096", &[LENT, READ, STALE, OTHERS]),
        ("gpt_free at 4096", &[LENT, READ, STALE, OTHERS]),
        ("gpt_check at 4096", &[LENT, READ, STALE, OTHERS, BITS, CHECKED]),
        (
            "gpt_add at 4096",
            &[LENT, READ, NOT_SAME, NEW, SIZE, ALIGNED, NAME, GIVEN, BITS, ADDED, OTHERS, STALE_ADD],
        ),
        ("gpt_delete at 4096", &[LENT, READ, NOT_SAME, SLOT, STALE_SLOT, OTHERS]),
        ("gpt_rename at 4096", &[LENT, READ, NOT_SAME, SLOT, NAME, GIVEN, OWN, OTHERS, STALE_SLOT]),
        ("gpt_resize at 4096", &[LENT, READ, NOT_SAME, SLOT, SIZE, STALE_SLOT, OTHERS]),
        ("gpt_repair at 4096", &[LENT, READ, STALE, OTHERS]),
    ],
    at_least: ("gpt_", 40_000),
    variants: variants::all,
    rules_to_break: variants::RULES_TO_BREAK,
};

/// Of blocks that have neither size.
const BLOCK: &[Cell] = &[Answer(6)];
const LENT: &[Cell] = &[Answer(0), Answer(1), By(1, "head"), By(1, "tail"), Answer(2)];
const READ: &[Cell] = &[Answer(10), State(1), State(2), State(3), State(4)];
const NOT_SAME: &[Cell] = &[Answer(11)];
const SLOT: &[Cell] = &[Answer(12), Answer(13)];
const NEW: &[Cell] = &[By(1, "type"), By(1, "unique"), Answer(21), Answer(22), Answer(24)];
const SIZE: &[Cell] = &[Answer(20), Answer(25)];
const ALIGNED: &[Cell] = &[Answer(27), On(aligned::PAST), By(25, aligned::ROOM_BESIDE)];
const NAME: &[Cell] = &[By(1, "name"), Answer(23), Answer(26), By(26, doubles::TWICE)];
const GIVEN: &[Cell] = &[
    By(26, doubles::CARRIED),
    On(doubles::NEAR),
    On(doubles::BEFORE_ZERO),
    By(23, doubles::BEFORE_ZERO),
    On(doubles::EMPTY),
    On(doubles::OF_STALE),
];
const OWN: &[Cell] = &[On(doubles::OWN)];
/// What other tools leave: a name twice, attributes that no add takes.
const OTHERS: &[Cell] = &[On(doubles::TWICE), On(attributes::OFFENDING)];
const BITS: &[Cell] = &[On(attributes::FREE), On(attributes::EARLIER_ALONE), On(attributes::STALE)];
const ADDED: &[Cell] = &[Answer(28), By(28, attributes::EARLIER_ALONE), By(28, attributes::BOTH_RULES)];
const CHECKED: &[Cell] = &[
    On(attributes::BOTH_RULES),
    On(attributes::ONE_COPY),
    On(attributes::NONE),
    On(attributes::SLOT_1),
    On(attributes::SLOT_128),
    On(attributes::BETWEEN),
];
const STALE: &[Cell] = &[On(stale::BESIDE), On(stale::ONE_COPY), On(stale::ALL)];
const STALE_ADD: &[Cell] = &[On(stale::SLOT), On(stale::ALL)];
const STALE_SLOT: &[Cell] = &[By(13, stale::SLOT), On(stale::BESIDE)];
