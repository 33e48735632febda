//! Other tools read what the command wrote, and it reads what they wrote.

mod common;

use common::{disk, spoil, Folder};
use std::ffi::OsStr;
use std::fs;
use std::path::{Path, PathBuf};
use testkit::listing::{self, Partition};
use testkit::{fmaptool, peer};

/// A disk as a person fills it, with all that the verbs do.
fn filled(folder: &Folder) -> PathBuf {
    let image = disk(folder, "disk.img", 131_072);
    for (size, kind, name, attributes) in [
        ("10M", "system", "EFI System", "0x1"),
        ("2048", "linux", "boot", "4"),
        ("4MiB", "swap", "swap", "0"),
        ("1M", "data", "data", "0x8000000000000000"),
        ("1K", "msft", "", "0"),
    ] {
        run!["gpt", "add", image, "--size", size, "--type", kind, "--name", name, "--attributes", attributes]
            .done();
    }
    run!["gpt", "delete", image, "3"].done();
    run!["gpt", "resize", image, "4", "512K"].done();
    run!["gpt", "rename", image, "5", "reserved"].done();
    run!["gpt", "add", image, "--size", "3M", "--type", "FE3A2A5D-4F32-41A7-B725-ACCC3285A309"].done();
    image
}

/// The rows of `gpt show --json`.
fn shown(image: &Path) -> Vec<Partition> {
    common::partitions(&run!["gpt", "show", image, "--json"].json())
}

/// By hand: first and last block of each slot, the lowest multiple of 2048 with room first.
const PLACES: [(u64, u64, u64); 5] =
    [(1, 2048, 22_527), (2, 22_528, 24_575), (3, 24_576, 30_719), (4, 32_768, 33_791), (5, 34_816, 34_817)];

#[test]
fn places_are_those_of_the_rules() {
    let folder = Folder::new();
    let places: Vec<_> = shown(&filled(&folder)).iter().map(|row| (row.slot, row.first, row.last)).collect();
    assert_eq!(places, PLACES);
}

#[test]
fn sgdisk_reads_the_disk() {
    if !peer::present("sgdisk", "gdisk") {
        return;
    }
    let folder = Folder::new();
    let image = filled(&folder);
    assert_eq!(listing::sgdisk(&image), shown(&image));
    let verdict = peer::printed("sgdisk", [Path::new("-v"), &image]);
    assert!(verdict.contains("No problems found"), "{verdict}");
    let free = run!["gpt", "free", image, "--json"].json();
    assert_eq!(listing::sgdisk_free(&image), (free.number("free_blocks"), free.number("longest_run")));
    spoil(&image, 512);
    run!["gpt", "repair", image].done();
    assert_eq!(listing::sgdisk(&image), shown(&image));
}

#[test]
fn sfdisk_and_cgpt_read_the_disk() {
    let folder = Folder::new();
    let image = filled(&folder);
    if peer::present("sfdisk", "fdisk") {
        assert_eq!(listing::sfdisk(&image), shown(&image));
    }
    if peer::present("cgpt", "cgpt") {
        assert_eq!(listing::cgpt(&image, PLACES.map(|(slot, ..)| slot)), shown(&image));
    }
}

/// fdisk alone takes a file with a block size.
#[test]
fn fdisk_reads_longer_blocks() {
    if !peer::present("fdisk", "fdisk") {
        return;
    }
    let folder = Folder::new();
    let image = common::disk_of_4096(&folder, "disk.img", 16_384);
    for (size, kind, name) in [("10M", "system", "EFI"), ("2048", "linux", "boot"), ("4K", "swap", "swap")] {
        common::at_4096("add", &image, &["--size", size, "--type", kind, "--name", name]).done();
    }
    let columns = "Start,End,Type-UUID,UUID,Name";
    let options = ["-b", "4096", "-l", "-o", columns].map(OsStr::new);
    let listed = peer::printed("fdisk", options.into_iter().chain([image.as_os_str()]));
    let rows = listed.lines().skip_while(|line| !line.starts_with("Start")).skip(1);
    let rows: Vec<String> = rows.map(|row| row.split_whitespace().collect::<Vec<_>>().join(" ")).collect();
    let row = |part: &Partition| {
        let Partition { first, last, kind, unique, name, .. } = part;
        format!("{first} {last} {kind} {unique} {name}")
    };
    let own = shown(&image);
    // By hand: 2560 blocks, 2048 and 1, each from the next multiple of 2048 on.
    let places: Vec<_> = own.iter().map(|part| (part.first, part.last)).collect();
    assert_eq!(places, [(2048, 4607), (6144, 8191), (8192, 8192)]);
    assert_eq!(rows, own.iter().map(row).collect::<Vec<_>>(), "{listed}");
}

/// On a fresh disk with blocks of 512 bytes, where none of the three is told an alignment.
#[test]
fn sgdisk_and_sfdisk_place_alike_by_default() {
    const SIZES: [u64; 6] = [1000, 2048, 1, 40_000, 2049, 3];
    let folder = Folder::new();
    let image = disk(&folder, "disk.img", 131_072);
    SIZES.iter().for_each(|size| drop(run!["gpt", "add", image, "--size", size.to_string()].done()));
    let places =
        |rows: Vec<Partition>| rows.iter().map(|row| (row.slot, row.first, row.last)).collect::<Vec<_>>();
    let own = places(shown(&image));
    // By hand: each from the next multiple of 2048 on.
    assert_eq!(own.iter().map(|place| place.1).collect::<Vec<_>>(), [2048, 4096, 6144, 8192, 49_152, 53_248]);
    if peer::present("sgdisk", "gdisk") {
        let other = disk(&folder, "sgdisk.img", 131_072);
        let adds = SIZES.iter().flat_map(|size| ["-n".to_string(), format!("0:0:+{size}")]);
        peer::printed("sgdisk", adds.chain([other.to_str().expect("UTF-8").to_string()]));
        assert_eq!(places(listing::sgdisk(&other)), own);
    }
    if peer::present("sfdisk", "fdisk") {
        let other = folder.sparse("sfdisk.img", 131_072 * 512);
        let sizes: String = SIZES.iter().map(|size| format!("size={size}\n")).collect();
        peer::feed("sfdisk", [Path::new("-q"), &other], &format!("label: gpt\n{sizes}"));
        assert_eq!(places(listing::sfdisk(&other)), own);
    }
}

#[test]
fn a_disk_of_sfdisk_is_read_and_edited() {
    if !peer::present("sfdisk", "fdisk") {
        return;
    }
    let folder = Folder::new();
    let image = folder.sparse("disk.img", 4 << 20);
    let script = "label: gpt\nfirst-lba: 34\nstart=100, size=50, name=\"a, b\"\nstart=34, size=6, type=S\n";
    peer::feed("sfdisk", [Path::new("-q"), &image], script);
    assert_eq!(shown(&image), listing::sfdisk(&image));
    run!["gpt", "add", image, "--size", "7", "--align", "1", "--name", "c"].done();
    let rows = listing::sfdisk(&image);
    let places: Vec<_> = rows.iter().map(|row| (row.slot, row.first, row.last)).collect();
    assert_eq!(places, [(1, 100, 149), (2, 34, 39), (3, 40, 46)]);
    let drawing = run!["gpt", "show", image, "--width", "70"].done();
    let drawing = drawing.lines().last().expect("a drawing").to_string();
    assert_eq!(drawing.trim_end_matches('.'), "23.1");
}

const LAYOUT: &str = "FLASH@0xff800000 8M {\n BOOT 2M { FMAP 4K }\n RW_CAL(PRESERVE)@3M 64K\n RW_LOG\n}\n";

#[test]
fn other_tools_read_the_map() {
    let folder = Folder::new();
    let (layout, image) = (folder.file("board.fmd", LAYOUT), folder.path("board.bin"));
    run!["fmd", "write", layout, image, "--create"].done();
    let json = run!["fmap", "show", image, "--json"].json();
    let areas: Vec<_> = json
        .list("areas")
        .iter()
        .map(|area| listing::Area {
            name: area.text("name").to_string(),
            offset: area.number("offset"),
            size: area.number("size"),
        })
        .collect();
    if peer::present("dump_fmap", "vboot-utils") {
        assert_eq!(listing::dump_fmap(&image), areas);
    }
    if peer::present("cbfstool", "coreboot-utils") {
        assert_eq!(listing::preserved(&image), ["RW_CAL"]);
        let text = image.to_str().expect("UTF-8");
        let out = folder.path("out.bin");
        peer::printed("cbfstool", [text, "read", "-r", "RW_CAL", "-f", out.to_str().expect("UTF-8")]);
        assert_eq!(run!["fmap", "extract", image, "RW_CAL"].bytes, fs::read(&out).expect("an area"));
    }
}

/// fmaptool asks for a section COREBOOT that is marked CBFS.
#[test]
fn fmaptool_makes_the_same_map() {
    if !peer::present(fmaptool::TOOL, fmaptool::PACKAGE) {
        return;
    }
    let folder = Folder::new();
    let layout = folder.file("board.fmd", LAYOUT.replace("RW_LOG", "COREBOOT(CBFS)"));
    let (image, map) = (folder.path("board.bin"), folder.path("map.bin"));
    run!["fmd", "write", layout, image, "--create"].done();
    peer::printed(fmaptool::TOOL, [&layout, &map]);
    let map = fs::read(&map).expect("a map");
    assert_eq!(fs::read(&image).expect("an image")[..map.len()], map);
}

/// cbfstool writes calibration into the old image, and reads it from the new one after the carry.
#[test]
fn cbfstool_reads_what_was_carried() {
    if !peer::present("cbfstool", "coreboot-utils") {
        return;
    }
    let folder = Folder::new();
    let (old, new) = (folder.path("old.bin"), folder.path("new.bin"));
    let layout = folder.file("old.fmd", LAYOUT);
    run!["fmd", "write", layout, old, "--create"].done();
    let moved = folder.file("new.fmd", LAYOUT.replace("@3M", "@5M"));
    run!["fmd", "write", moved, new, "--create"].done();
    let bytes: Vec<u8> = (0..65_536u32).map(|k| (k % 251) as u8).collect();
    let (from, to) = (folder.file("cal.bin", &bytes), folder.path("out.bin"));
    let text = |path: &PathBuf| path.to_str().expect("UTF-8").to_string();
    peer::printed(
        "cbfstool",
        [text(&old), "write".into(), "-r".into(), "RW_CAL".into(), "-f".into(), text(&from)],
    );
    run!["fmap", "carry", old, new].done();
    peer::printed(
        "cbfstool",
        [text(&new), "read".into(), "-r".into(), "RW_CAL".into(), "-f".into(), text(&to)],
    );
    assert_eq!(fs::read(&to).expect("an area"), bytes);
}

/// What the hint advises writes the protective record.
#[test]
fn a_lost_protective_record() {
    if !peer::present("sgdisk", "gdisk") {
        return;
    }
    let folder = Folder::new();
    let image = filled(&folder);
    let before = fs::read(&image).expect("an image");
    let mut without = before.clone();
    without[..512].fill(0);
    fs::write(&image, &without).expect("an image");
    let ended = run!["gpt", "verify", image];
    let hint = format!(
        "hint: gpt repair leaves block 0 as it is; sgdisk -e {} writes the record\n",
        image.display()
    );
    assert!(ended.status == Some(1) && ended.out.ends_with(&hint), "{}", ended.out);
    run!["gpt", "repair", image].done();
    assert_eq!(fs::read(&image).expect("an image"), without);
    peer::printed("sgdisk", ["-e".as_ref(), image.as_os_str()]);
    run!["gpt", "verify", image].done();
    assert_eq!(fs::read(&image).expect("an image")[512..], before[512..]);
}
