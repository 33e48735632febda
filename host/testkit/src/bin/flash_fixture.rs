//! Prints a flash image as a fixture: the areas as `dump_fmap` lists them, those that `cbfstool` marks as preserved,
//! and the bytes.
//!
//! usage: flash_fixture TOOL IMAGE; TOOL `none` lists no area

use std::path::Path;
use testkit::{fixture, listing};

const FILL: u8 = 0xFF;

fn main() {
    let arguments: Vec<String> = std::env::args().skip(1).collect();
    let [tool, image] = &arguments[..] else { panic!("usage: flash_fixture TOOL IMAGE") };
    let image = Path::new(image);
    let bytes = std::fs::read(image).unwrap_or_else(|error| panic!("{}: {error}", image.display()));
    println!("length {}\nfill {FILL:02X}", bytes.len());
    if tool == "dump_fmap" {
        for area in listing::dump_fmap(image) {
            println!("area {} {} {}", area.name, area.offset, area.size);
        }
        listing::preserved(image).iter().for_each(|name| println!("preserve {name}"));
    }
    print!("{}", fixture::lines("image", &bytes, FILL));
}
