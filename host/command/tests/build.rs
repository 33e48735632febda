//! `gpt build`: where the layout string comes from, what is built of it, and what is told.

mod common;

use common::strings::{string, unique, DISK};
use common::{at_4096, disk, fed, partitions, spoil, Ended, Folder};
use std::ffi::OsStr;
use std::fs::{self, File};
use std::path::{Path, PathBuf};
use testkit::json::{self, Json};
use testkit::{listing, peer};

const LINUX: &str = "0FC63DAF-8483-4772-8E79-3D69D8477DE4";
const DATA: &str = "EBD0A0A2-B9E5-4433-87C0-68B6B72699C7";

fn shown(disk: &Path) -> Json {
    run!["gpt", "show", disk, "--json"].json()
}

/// First and last block, attributes and name of each partition, in the order of their slots.
fn rows(shown: &Json) -> Vec<(u64, u64, u64, String)> {
    let rows = partitions(shown);
    let slots: Vec<u64> = rows.iter().map(|row| row.slot).collect();
    assert_eq!(slots, (1..=rows.len() as u64).collect::<Vec<_>>());
    rows.into_iter().map(|row| (row.first, row.last, row.attributes, row.name)).collect()
}

fn row(first: u64, last: u64, attributes: u64, name: &str) -> (u64, u64, u64, String) {
    (first, last, attributes, name.to_string())
}

/// The strings of the boot loader's manual, with GUIDs and 60MiB where it has 60Mib: 60 MiB are 122,880 blocks.
#[test]
fn strings_of_the_boot_loader() {
    let folder = Folder::new();
    let (one, two) = (row(2048, 124_927, 0, "u-boot"), row(124_928, 247_807, 0, "kernel"));
    let with_kind =
        |kind: &str| string(&["name=u-boot,size=60MiB", &format!("name=kernel,size=60MiB{kind}")]);
    for (name, text, second) in [
        ("plain.img", with_kind("") + ";", DATA),
        ("short.img", with_kind(",type=linux") + ";", LINUX),
        ("guid.img", with_kind(&format!(",type={LINUX}")), LINUX),
    ] {
        let image = folder.sparse(name, 256 << 20);
        run!["gpt", "build", image, "--text", text].done();
        let shown = shown(&image);
        assert_eq!(rows(&shown), [one.clone(), two.clone()]);
        let kinds: Vec<String> = partitions(&shown).into_iter().map(|row| row.kind).collect();
        assert_eq!(kinds, [DATA, second]);
        assert_eq!((shown.text("guid"), shown.number("state")), (DISK, 1));
    }
    let text = string(&["name=u-boot,size=60MiB", "name=boot,size=60MiB,bootable", "name=rootfs,size=0"]);
    let image = folder.sparse("rest.img", 256 << 20);
    run!["gpt", "build", image, "--text", text].done();
    let rest = row(247_808, 524_288 - 34, 0, "rootfs");
    assert_eq!(rows(&shown(&image)), [one, row(124_928, 247_807, 4, "boot"), rest]);
    run!["gpt", "verify", image].done();
}

/// As `gpt show` tells it; a dry run tells the same and writes nothing.
#[test]
fn what_stands_where_is_told() {
    let folder = Folder::new();
    let image = folder.sparse("disk.img", 1000 * 512);
    let text = string(&["name=a,size=4KiB,start=50KiB", "name=b,size=512,type=swap,bootable"]);
    let tried = run!["gpt", "build", image, "--text", text, "--align", "8", "--dry-run"].done();
    assert!(fs::read(&image).expect("an image").iter().all(|byte| *byte == 0));
    let path = image.display();
    let line = format!(
        "{path}: 1000 blocks (500 KiB) of 512 bytes, usable 34 to 966, disk GUID {DISK}, 2 partitions\n\n"
    );
    let table = tried.strip_prefix(&format!("would build {line}")).expect("a first line").to_string();
    let built = run!["gpt", "build", image, "--text", text, "--align", "8"].done();
    assert_eq!(built, format!("built {line}{table}"));
    let shown_text = run!["gpt", "show", image].done();
    assert_eq!(shown_text.split_once("\n\n").expect("a blank line").1, table);
    let shown = shown(&image);
    assert_eq!(rows(&shown), [row(100, 107, 0, "a"), row(40, 40, 4, "b")]);
    let again = run!["gpt", "build", image, "--text", text, "--align", "8", "--replace", "--json"].json();
    assert_eq!((again.at("layout"), again.at("changed")), (&Json::Null, &Json::Bool(false)));
    assert_eq!((again.number("alignment"), again.text("replaced")), (8, "a good GPT with 2 partitions"));
    for field in ["partitions", "free_runs", "guid", "blocks", "first_usable", "last_usable", "free_blocks"] {
        assert_eq!(again.at(field), shown.at(field), "{field}");
    }
    assert_eq!(
        (again.at("longest_run"), again.at("drawing")),
        (shown.at("longest_run"), shown.at("drawing"))
    );
    let layout = folder.file("layout.txt", &text);
    let json = run!["gpt", "build", image, layout, "--align", "1", "--replace", "--dry-run", "--json"].json();
    assert_eq!(
        (json.text("layout"), json.at("changed")),
        (layout.to_str().expect("UTF-8"), &Json::Bool(true))
    );
    assert_eq!(partitions(&json)[1].first, 34);
}

/// One line feed at the end of a file or of standard input does not count; in --text every byte does.
#[test]
fn where_the_string_comes_from() {
    let folder = Folder::new();
    let text = string(&["name=a,size=512"]);
    let images = |name: &str| folder.sparse(name, 1 << 20);
    let from_file = |name: &str, bytes: String| -> (PathBuf, Ended) {
        let (image, layout) = (images(name), folder.file("layout.txt", bytes));
        let ended = run!["gpt", "build", image, layout, "--align", "1"];
        (image, ended)
    };
    let from_input = |name: &str, bytes: String| -> (PathBuf, Ended) {
        let image = images(name);
        let words = ["gpt", "build", image.to_str().expect("UTF-8"), "-", "--align", "1"].map(OsStr::new);
        let ended = fed(&words, bytes.as_bytes());
        (image, ended)
    };
    let typed = images("typed.img");
    run!["gpt", "build", typed, "--text", text, "--align", "1"].done();
    let expected = fs::read(&typed).expect("an image");
    for (image, ended) in [
        from_file("file.img", text.clone()),
        from_file("line.img", text.clone() + "\n"),
        from_file("semicolon.img", text.clone() + ";\n"),
        from_input("input.img", text.clone()),
        from_input("input-line.img", text.clone() + "\n"),
    ] {
        ended.done();
        assert_eq!(fs::read(&image).expect("an image"), expected);
    }
    for end in ["\n\n", "\r\n", " ", "\n;", "\0"] {
        from_file("two.img", text.clone() + end).1.refused(70);
        from_input("two.img", text.clone() + end).1.refused(70);
    }
    let image = images("typed-line.img");
    run!["gpt", "build", image, "--text", text.clone() + "\n"].refused(70);
    run!["gpt", "build", image].usage("LAYOUT is missing");
    run!["gpt", "build", image, "layout.txt", "--text", text].usage("LAYOUT and --text stand both");
    run!["gpt", "build", image, folder.path("missing.txt")].unusable("missing.txt does not exist");
    run!["gpt", "build", image, folder.0].unusable("cannot be read");
    run!["gpt", "build", folder.path("missing.img"), "--text", text].unusable("missing.img does not exist");
    let layout = folder.file("layout.txt", &text);
    run!["gpt", "build", layout, image].usage("layout.txt holds a layout string");
    assert!(fs::read(&image).expect("an image").iter().all(|byte| *byte == 0));
}

/// The limit counts the string, and not the line feed behind it.
#[test]
fn the_longest_string() {
    let folder = Folder::new();
    let short = string(&["size=512,name=a"]);
    let long = |len: usize| short.replace("=512", &format!("={:0>1$}", 512, 3 + len - short.len()));
    assert_eq!(long(8192).len(), 8192);
    let image = folder.sparse("disk.img", 4 << 20);
    let layout = folder.file("layout.txt", long(8192) + "\n");
    run!["gpt", "build", image, layout].done();
    assert_eq!(rows(&shown(&image)), [row(2048, 2048, 0, "a")]);
    for bytes in [long(8193), long(8193) + "\n", long(20_000)] {
        let layout = folder.file("layout.txt", bytes);
        let ended = run!["gpt", "build", image, layout, "--replace"];
        let hint = "a layout string has at most 8192 bytes; gpt add adds what has no room in it";
        assert_eq!(ended.hint(), hint);
        let words = format!("{}: the layout string is out of form: more than 8192 bytes", layout.display());
        assert_eq!(ended.refused(70), words);
    }
}

#[test]
fn blocks_of_4096_bytes() {
    let folder = Folder::new();
    let image = folder.sparse("disk.img", 1000 * 4096);
    let text = string(&["name=a,size=16KiB,start=1MiB", "name=b,size=0"]);
    at_4096("build", &image, &["--text", &text, "--align", "8"]).done();
    assert_eq!(rows(&shown(&image)), [row(256, 259, 0, "a"), row(8, 255, 0, "b")]);
    let ended = at_4096("build", &image, &["--text", &text.replace("16KiB", "512"), "--replace"]);
    assert!(ended.refused(71).ends_with("partition 1 \"a\""));
}

/// It is written over nothing but with --replace, and over nothing that is in use but with --force.
#[test]
fn what_is_there_is_kept() {
    let folder = Folder::new();
    let image = disk(&folder, "disk.img", 2048);
    let text = string(&["name=a,size=512"]);
    let before = fs::read(&image).expect("an image");
    for extra in [&[][..], &["--force"], &["--dry-run"]] {
        let words =
            [&["gpt", "build", image.to_str().expect("UTF-8"), "--text", &text, "--align", "1"], extra]
                .concat();
        let ended = common::run(&words.iter().map(OsStr::new).collect::<Vec<_>>());
        assert_eq!(ended.hint(), "--replace writes the string's table over it");
        ended.needed("holds a good GPT with 0 partitions; nothing was written");
    }
    // What the library refuses is told before that.
    run!["gpt", "build", image, "--text", "x"].refused(70);
    assert_eq!(fs::read(&image).expect("an image"), before);
    let held = File::open(&image).expect("an image");
    held.lock_shared().expect("a lock");
    run!["gpt", "build", image, "--text", text, "--align", "1", "--replace"]
        .needed("is in use (locked by another program)");
    drop(held);
    run!["gpt", "build", image, "--text", text, "--align", "1", "--replace"].done();
    assert_eq!(rows(&shown(&image)), [row(34, 34, 0, "a")]);
    spoil(&image, 512);
    run!["gpt", "build", image, "--text", text, "--align", "1", "--replace"].done();
    run!["gpt", "verify", image].done();
}

/// Legal, and hardly meant.
#[test]
fn a_variable_in_a_name_is_warned_of() {
    let folder = Folder::new();
    let image = folder.sparse("disk.img", 1 << 20);
    let text = string(&["name=a,size=512", "name=${uboot_name},size=512"]);
    let ended = run!["gpt", "build", image, "--text", text, "--align", "1", "--json"];
    let warning = "the name of partition 2 is \"${uboot_name}\": a variable that is not filled in?";
    assert_eq!(
        (ended.status, ended.err.as_str()),
        (Some(0), format!("usigrambal: warning: {warning}\n").as_str())
    );
    let json = json::parse(&ended.out).expect("JSON");
    assert_eq!(json.list("warnings"), [Json::Text(warning.into())]);
    assert_eq!(rows(&shown(&image))[1], row(35, 35, 0, "${uboot_name}"));
}

/// sgdisk and sfdisk find nothing wrong with a built disk, and list the partitions that the string says.
#[test]
fn other_tools_read_a_built_disk() {
    let folder = Folder::new();
    let image = folder.sparse("disk.img", 64 << 20);
    let names: Vec<String> = (1..=100).map(|number| format!("name=p{number},size={number}KiB")).collect();
    let mut parts: Vec<&str> = names.iter().map(String::as_str).collect();
    parts[7] = "name=boot,size=1MiB,start=40MiB,type=system,bootable";
    parts[99] = "name=rest,size=0,type=FE3A2A5D-4F32-41A7-B725-ACCC3285A309";
    let text = string(&parts);
    assert!(text.len() <= 8192);
    run!["gpt", "build", image, "--text", text, "--align", "8"].done();
    let own = partitions(&shown(&image));
    assert_eq!((own.len(), own[7].first, own[7].attributes), (100, 81_920, 4));
    assert!(own.iter().zip(1..).all(|(row, number)| row.unique == unique(number)));
    if peer::present("sgdisk", "gdisk") {
        assert_eq!(listing::sgdisk(&image), own);
        let verdict = peer::printed("sgdisk", [Path::new("-v"), &image]);
        assert!(verdict.contains("No problems found"), "{verdict}");
    }
    if peer::present("sfdisk", "fdisk") {
        assert_eq!(listing::sfdisk(&image), own);
        let output = peer::run("sfdisk", [Path::new("-V"), &image]);
        let said = String::from_utf8_lossy(&[output.stdout, output.stderr].concat()).into_owned();
        assert!(said.contains("No errors detected"), "{said}");
    }
}
