//! The verbs on disks.

use super::{flag, value, Choice, Verb, BLOCK, BLOCK_WRITTEN, DRY, EDIT, FORCE, JSON};
use crate::gpt;
use crate::json::Json;

/// What a disk is that could not be judged.
static UNVERIFIED: [(&str, Json); 2] = [("verified", Json::Bool(false)), ("state", Json::Null)];

const RULE: Choice = value(
    "--rule",
    "present|earlier",
    "attribute bits that must be zero: present 3 to 47, earlier 1 to 47; present if not given",
);

const REPLACE: Choice = flag("--replace", "write over what is there (not if it is in use)");

pub static VERBS: &[Verb] = &[
    Verb {
        group: "gpt",
        name: "show",
        operands: &["DISK..."],
        options: &[
            value("--width", "N", "columns of the drawing, 64 if not given"),
            flag("--layout", "print the disk as a layout string, of which gpt build makes the same partitions"),
            BLOCK,
            JSON,
        ],
        required: 0,
        about: "Show the partitions of a disk, the state of its two table copies, its free runs, \
                which unused slots still hold bytes of deleted partitions, which partitions have one name, their attributes by name, \
                and its blocks drawn to scale: a partition as its number and =, free blocks as dots. \
                --layout prints a layout string alone, in one line: starts as they stand, sizes in bytes, types by their short names. \
                It has no words for a disk without partitions, unused slots between used ones, \
                attributes other than legacy-boot, and names other than 1 to 36 bytes of 21 to 7E hex without comma and semicolon.",
        examples: &[
            "usigrambal gpt show disk.img",
            "usigrambal gpt show /dev/sdb --width 100",
            "usigrambal gpt show disk.img --json",
            "usigrambal gpt show disk.img --layout >layout.txt",
        ],
        always: &[],
        run: gpt::show,
    },
    Verb {
        group: "gpt",
        name: "free",
        operands: &["DISK..."],
        options: &[BLOCK, JSON],
        required: 0,
        about: "Count the free blocks of a disk, tell the longest run of them, and list the runs. \
                A new partition uses a run from the first multiple of its --align on.",
        examples: &["usigrambal gpt free disk.img", "usigrambal gpt free disk.img /dev/sdb --json"],
        always: &[],
        run: gpt::free,
    },
    Verb {
        group: "gpt",
        name: "format",
        operands: &["DISK"],
        options: &[
            value("--guid", "GUID", "the disk GUID; a random one if not given"),
            BLOCK_WRITTEN,
            DRY,
            REPLACE,
            FORCE,
            JSON,
        ],
        required: 0,
        about: "Write an empty table in both copies, and block 0, on a disk that holds nothing: \
                its first 128 KiB and its last 33 blocks (5 of 4096 bytes) are all 00 or all FF. What is there is named, and --replace \
                goes on. Bytes between head and tail stay.",
        examples: &[
            "truncate -s 64M disk.img && usigrambal gpt format disk.img",
            "truncate -s 64M disk.img && usigrambal gpt format disk.img --block 4096",
            "usigrambal gpt format disk.img --guid 01234567-89AB-4CDE-8F01-23456789ABCD --replace",
        ],
        always: &[],
        run: gpt::format,
    },
    Verb {
        group: "gpt",
        name: "build",
        operands: &["DISK", "[LAYOUT]"],
        options: &[
            value("--text", "STRING", "the layout string itself, instead of LAYOUT"),
            value(
                "--align",
                "1|8|2048",
                "partitions without start begin at a multiple of so many blocks; 2048 if not given",
            ),
            BLOCK_WRITTEN,
            DRY,
            REPLACE,
            FORCE,
            JSON,
        ],
        required: 0,
        about: "Build the table that a layout string describes, in both copies, and block 0; on a disk that holds nothing, as gpt format, \
                or with --replace. Tells what stands where. LAYOUT is a file or - (standard input); one line feed at its end is left out. \
                A layout string is what a boot loader's gpt command takes, at most 8192 bytes: uuid_disk=GUID, then partitions, parted by \
                semicolons (one may stand at the end), their fields by commas, in any order: name=, size= and uuid= must be there, \
                start=, type= (a GUID or system, msft, data, linux, swap; data if not given) and bootable may be. \
                Start and size are decimal bytes, with KiB, MiB or GiB if wanted; size 0 in the last partition is the rest of its free run. \
                No blank, no line end and no ${VARIABLE} stands in it: envsubst fills those in. Where it is refused, the hint names the partition \
                and the byte, both counted from 1.",
        examples: &[
            "truncate -s 64M disk.img && usigrambal gpt build disk.img layout.txt",
            "usigrambal gpt build disk.img layout.txt --replace --dry-run",
            "envsubst <layout.txt | usigrambal gpt build disk.img - --replace",
            "usigrambal gpt build disk.img --text \"$partitions\" --align 8 --replace",
        ],
        always: &[],
        run: gpt::build,
    },
    Verb {
        group: "gpt",
        name: "add",
        operands: &["DISK"],
        options: &[
            value("--size", "SIZE", "its size"),
            value(
                "--align",
                "1|8|2048",
                "starts at a multiple of so many blocks; 2048 if not given (1 MiB; 8 MiB of 4096-byte ones)",
            ),
            value("--type", "TYPE", "its type, a GUID or system, msft, data, linux, swap; linux if not given"),
            value("--guid", "GUID", "its unique GUID; a random one if not given"),
            value(
                "--name",
                "NAME",
                "its name, at most 36 UTF-16 units, which no other partition has; none if not given",
            ),
            value(
                "--attributes",
                "BITS",
                "its attribute bits, as legacy-boot,60 or one number for all 64; none if not given",
            ),
            RULE,
            BLOCK_WRITTEN,
            DRY,
            FORCE,
            JSON,
        ],
        required: 1,
        about: "Add a partition in the lowest unused slot, at the lowest block with room for it whose number is a multiple of --align; \
                tells slot, first and last block. \
                A slot whose type GUID is zero is unused; what else it holds is overwritten. \
                A name that another partition has is refused; any number of partitions may have none. \
                BITS are a list, parted by commas, of required, no-block-io, legacy-boot (bits 0 to 2) and numbers from 48 to 63, \
                or else one number for all 64 bits. \
                A bit that the rule wants zero is refused; some firmware wants the earlier rule.",
        examples: &[
            "usigrambal gpt add disk.img --size 10M --name boot --type system",
            "usigrambal gpt add disk.img --size 2048 --attributes legacy-boot,60",
            "usigrambal gpt add disk.img --size 2048 --attributes required --rule earlier",
            "usigrambal gpt add disk.img --size 64K --name keys --align 8",
        ],
        always: &[],
        run: gpt::add,
    },
    Verb {
        group: "gpt",
        name: "delete",
        operands: &["DISK", "PARTITION"],
        options: EDIT,
        required: 0,
        about: "Delete a partition: its slot becomes zero. PARTITION is its number, its name or its unique GUID.",
        examples: &["usigrambal gpt delete disk.img 2", "usigrambal gpt delete disk.img pages"],
        always: &[],
        run: gpt::delete,
    },
    Verb {
        group: "gpt",
        name: "resize",
        operands: &["DISK", "PARTITION", "SIZE"],
        options: EDIT,
        required: 0,
        about: "Give a partition another size; its first block stays. PARTITION is its number, its name or its unique GUID.",
        examples: &["usigrambal gpt resize disk.img 1 20M", "usigrambal gpt resize disk.img 1 4096 --dry-run"],
        always: &[],
        run: gpt::resize,
    },
    Verb {
        group: "gpt",
        name: "rename",
        operands: &["DISK", "PARTITION", "NAME"],
        options: EDIT,
        required: 0,
        about: "Give a partition another name, of at most 36 UTF-16 units, which no other partition has (an empty one may repeat). \
                PARTITION is its number, its name or its unique GUID; where two have the name, the number.",
        examples: &["usigrambal gpt rename disk.img 1 boot", "usigrambal gpt rename disk.img pages scratch"],
        always: &[],
        run: gpt::rename,
    },
    Verb {
        group: "gpt",
        name: "repair",
        operands: &["DISK"],
        options: EDIT,
        required: 0,
        about: "Write the copy of the table that is not good from the one that is; where both are good and differ, the backup from the primary.",
        examples: &["usigrambal gpt repair disk.img --dry-run", "usigrambal gpt repair disk.img"],
        always: &[],
        run: gpt::repair,
    },
    Verb {
        group: "gpt",
        name: "check",
        operands: &["DISK..."],
        options: &[RULE, BLOCK, JSON],
        required: 0,
        about: "Check the attributes of all partitions by a rule: list those that have a bit set which it wants zero, with the bits. \
                Exit status 0 if none has, 1 where one has. What passes the earlier rule, which some firmware wants, passes the present one. \
                Bytes in unused slots do not count. gpt verify checks the copies of the table.",
        examples: &["usigrambal gpt check disk.img", "usigrambal gpt check disk.img /dev/sdb --rule earlier --json"],
        always: &[],
        run: gpt::check,
    },
    Verb {
        group: "gpt",
        name: "verify",
        operands: &["DISK..."],
        options: &[BLOCK, JSON],
        required: 0,
        about: "Check both copies of the table, and the record of block 0 by which other systems see it. \
                Exit status 0 only if the copies are good and the same and the record is there, 1 where one of them is not. \
                Bytes of deleted partitions in unused slots are noted; they are no fault. \
                Partitions that have one name are warned of, as a boot loader may find a partition by it; that does not change the exit status.",
        examples: &["usigrambal gpt verify disk.img && echo good", "usigrambal gpt verify disk.img /dev/sdb --json"],
        always: &UNVERIFIED,
        run: gpt::verify,
    },
];
