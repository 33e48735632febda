//! Prints an image as a fixture: the partitions as `sgdisk`, `sfdisk` or `cgpt` lists them, and the bytes.
//!
//! usage: disk_fixture TOOL IMAGE [BLOCK]; TOOL `none` lists no partition; BLOCK is 512 where it is left out

use std::path::Path;
use testkit::disk::Disk;
use testkit::{fixture, listing};

fn main() {
    let arguments: Vec<String> = std::env::args().skip(1).collect();
    let (tool, image, block) = match &arguments[..] {
        [tool, image] => (tool, image, 512),
        [tool, image, block] => (tool, image, block.parse().expect("a number of bytes")),
        _ => panic!("usage: disk_fixture TOOL IMAGE [BLOCK]"),
    };
    let image = Path::new(image);
    let partitions = match tool.as_str() {
        "sgdisk" => listing::sgdisk(image),
        "sfdisk" => listing::sfdisk(image),
        "cgpt" => listing::cgpt(image, listing::cgpt_quick(image).into_iter().map(|(slot, ..)| slot)),
        "none" => Vec::new(),
        _ => panic!("disk_fixture: unknown tool {tool}"),
    };
    let disk = Disk::read(image, block).unwrap_or_else(|error| panic!("{}: {error}", image.display()));
    if block != 512 {
        println!("block {block}");
    }
    println!("blocks {}", disk.n);
    for partition in partitions {
        println!("partition {partition}");
    }
    print!("{}{}", fixture::lines("head", &disk.head, 0), fixture::lines("tail", &disk.tail, 0));
}
