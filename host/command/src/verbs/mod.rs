//! Every call of the command: what it takes, what it does, and how it is used.

mod fmap;
mod fmd;
mod gpt;

use crate::arguments::{Choice, Given};
use crate::failure::Failure;
use crate::json::Json;
use crate::report::Report;

pub struct Verb {
    pub group: &'static str,
    pub name: &'static str,
    /// A last one that ends with `...` may stand several times, one in brackets may be left out.
    pub operands: &'static [&'static str],
    /// Those that must be given come first.
    pub options: &'static [Choice],
    pub required: usize,
    pub about: &'static str,
    pub examples: &'static [&'static str],
    /// Fields that the JSON document of a failure has too.
    pub always: &'static [(&'static str, Json)],
    pub run: fn(&Given) -> Result<Report, Failure>,
}

impl Verb {
    pub fn takes_several(&self) -> bool {
        self.operands.last().is_some_and(|name| name.ends_with("..."))
    }
}

pub const GROUPS: [(&str, &str); 3] = [
    ("fmd", "layout texts: list their sections, write their flash map into an image"),
    ("fmap", "flash images: show the map, compare two, carry preserved areas, extract an area"),
    ("gpt", "disks with a GUID partition table: show, check, format, build, edit and repair them"),
];

/// The verbs of every group, in the groups' order.
pub fn all() -> impl Iterator<Item = &'static Verb> {
    fmd::VERBS.iter().chain(fmap::VERBS).chain(gpt::VERBS)
}

pub fn of_group(group: &str) -> impl Iterator<Item = &'static Verb> + use<'_> {
    all().filter(move |verb| verb.group == group)
}

const fn flag(name: &'static str, about: &'static str) -> Choice {
    Choice { name, value: None, about }
}

const fn value(name: &'static str, value: &'static str, about: &'static str) -> Choice {
    Choice { name, value: Some(value), about }
}

const JSON: Choice = flag("--json", "print one JSON document instead of text");
const DRY: Choice = flag("--dry-run", "tell what would be done, and write nothing");
const FORCE: Choice = flag("--force", "write even if the file or device is in use");
const BLOCK: Choice = value(
    "--block",
    "512|4096",
    "bytes of a block of a file; if not given 512, or 4096 where that alone reads",
);
const BLOCK_WRITTEN: Choice =
    value("--block", "512|4096", "bytes of a block of a file; 512 if not given (a device has its own)");
const EDIT: &[Choice] = &[BLOCK_WRITTEN, DRY, FORCE, JSON];
