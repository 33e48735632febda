//! The verbs on flash images.

use super::{flag, value, Verb, DRY, FORCE, JSON};
use crate::flash;

pub static VERBS: &[Verb] = &[
    Verb {
        group: "fmap",
        name: "show",
        operands: &["IMAGE"],
        options: &[JSON],
        required: 0,
        about: "Show the flash map of an image: its areas by their nesting, and the gaps that no area covers.",
        examples: &["usigrambal fmap show board.bin", "usigrambal fmap show board.bin --json"],
        always: &[],
        run: flash::show,
    },
    Verb {
        group: "fmap",
        name: "diff",
        operands: &["OLD", "NEW"],
        options: &[
            value("--svg", "FILE", "draw both maps side by side, and what is carried; - is standard output"),
            JSON,
        ],
        required: 0,
        about: "Tell what the update from OLD to NEW would do: each area same, moved, resized or in one map alone, its bytes \
                equal or not, carried or lost. Lost is an area of OLD that a map marks PRESERVE and that a carry would not bring. \
                Nothing is written but the drawing. Exit status 1 if something would be lost.",
        examples: &[
            "usigrambal fmap diff running.bin update.bin",
            "usigrambal fmap diff running.bin update.bin --svg update.svg",
        ],
        always: &[],
        run: flash::diff,
    },
    Verb {
        group: "fmap",
        name: "carry",
        operands: &["OLD", "NEW"],
        options: &[
            flag("--strict", "write nothing if an area that a map marks is not carried, or one is overwritten"),
            DRY,
            FORCE,
            JSON,
        ],
        required: 0,
        about: "Carry each area that the map of OLD marks PRESERVE, byte for byte, into the same-named area of NEW, and tell \
                what becomes of every area. OLD is only read. A carry onto a device that was cut is made whole by calling it again.",
        examples: &[
            "usigrambal fmap carry running.bin update.bin --dry-run",
            "usigrambal fmap carry running.bin update.bin",
            "usigrambal fmap carry running.bin update.bin --strict",
        ],
        always: &[],
        run: flash::carry,
    },
    Verb {
        group: "fmap",
        name: "extract",
        operands: &["IMAGE", "AREA"],
        options: &[value("-o", "FILE", "write to FILE; - is standard output, as without it")],
        required: 0,
        about: "Write the bytes of an area to standard output, which may not be a terminal, or to a file.",
        examples: &[
            "usigrambal fmap extract board.bin RW_CAL -o calibration.bin",
            "usigrambal fmap extract board.bin RW_CAL | sha256sum",
        ],
        always: &[],
        run: flash::extract,
    },
];
