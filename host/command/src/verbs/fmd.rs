//! The verbs on layout texts.

use super::{flag, Verb, DRY, FORCE, JSON};
use crate::layout;

pub static VERBS: &[Verb] = &[
    Verb {
        group: "fmd",
        name: "list",
        operands: &["LAYOUT"],
        options: &[JSON],
        required: 0,
        about: "List the sections of a layout text with their positions in the image. LAYOUT - is standard input.",
        examples: &["usigrambal fmd list board.fmd", "usigrambal fmd list --json - <board.fmd"],
        always: &[],
        run: layout::list,
    },
    Verb {
        group: "fmd",
        name: "write",
        operands: &["LAYOUT", "IMAGE"],
        options: &[
            flag("--create", "make a new image of the stated size, filled with FF hex"),
            flag("--retire", "overwrite the signature of each good map in front of the new one with FF hex"),
            DRY,
            FORCE,
            JSON,
        ],
        required: 0,
        about: "Write the flash map of a layout text into an image, at the start of section FMAP; no other byte changes. \
                Where another good map would stay in front of it, nothing is written: readers take the lowest.",
        examples: &[
            "usigrambal fmd write board.fmd board.bin --create",
            "usigrambal fmd write board.fmd board.bin --dry-run",
            "usigrambal fmd write board.fmd board.bin --retire",
        ],
        always: &[],
        run: layout::write,
    },
];
