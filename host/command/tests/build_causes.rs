//! Why a layout string is refused, and what would help.

mod common;

use common::strings::{string, unique, DISK, ZEROS};
use common::{refused, Ended, Folder};
use std::ffi::OsStr;
use std::process::Command;
use testkit::json::{self, Json};
use testkit::peer;

const FORM: &str = "the layout string is out of form";
const ONLY: &str = "stands in the string, and only bytes of 21 to 7E hex may";
const DIGITS: &str = "32 hex digits in groups of 8, 4, 4, 4 and 12";
const SUFFIXES: &str = "behind its digits; KiB, MiB, GiB or nothing may stand there";

/// A string in form, with one text in place of another.
fn with(old: &str, new: &str) -> String {
    let text = string(&["name=a,size=512", "name=b,start=1MiB,size=4KiB,type=linux,bootable"]);
    assert!(text.contains(old), "{old}");
    text.replacen(old, new, 1)
}

/// The place of a cause: the partition, 0 in front of the first, and the byte where a text begins; the end for none.
fn place(text: &str, partition: usize, begins: &str) -> (usize, String) {
    let at = match begins {
        "" => text.len() + 1,
        begins => text.find(begins).unwrap_or_else(|| panic!("{begins} in {text}")) + 1,
    };
    let number = if partition == 0 { String::new() } else { format!("partition {partition}, ") };
    (at, format!("{number}byte {at}: "))
}

/// A string is out of form, with this cause at this place.
#[track_caller]
fn out(text: &str, partition: usize, begins: &str, cause: &str) {
    let folder = Folder::new();
    let image = folder.sparse("disk.img", 1 << 20);
    let words = ["gpt", "build", image.to_str().expect("UTF-8"), "--text", text];
    let (at, told) = place(text, partition, begins);
    refused(&words, 70, FORM, &(told + cause));
    let words: Vec<&OsStr> = words.iter().chain(&["--json"]).map(OsStr::new).collect();
    let json = json::parse(&common::run(&words).out).expect("JSON");
    let Json::Object(fields) = &json else { panic!("{json:?}") };
    assert_eq!(json.number("byte"), at as u64, "{text}");
    let numbered = fields.iter().find(|(name, _)| name == "partition").map(|_| json.number("partition"));
    assert_eq!(numbered, (partition != 0).then_some(partition as u64), "{text}");
    assert!(std::fs::read(&image).expect("an image").iter().all(|byte| *byte == 0));
}

#[test]
fn the_beginning() {
    let begins = "a layout string begins with uuid_disk=GUID";
    out("", 0, "", &format!("{begins}; here it is empty"));
    let quoted = with("uuid_disk", "\"uuid_disk");
    out(&quoted, 0, "\"", &format!("{begins}, without a quotation mark in front"));
    let printed = with("uuid_disk", "partitions=uuid_disk");
    out(&printed, 0, "partitions", &format!("{begins}; \"partitions=\" stands in front of it"));
    out("name=a", 0, "name", &format!("{begins}, not with \"name=a\""));
    let short = format!("uuid_disk is no GUID ({DIGITS}): \"{}\"", &DISK[1..]);
    out(&with(DISK, &DISK[1..]), 0, &DISK[1..], &short);
    let text = format!("uuid_disk={DISK}");
    out(&text, 0, "", "no partition stands behind the disk's GUID");
}

#[test]
fn the_fields() {
    out(&with(";name=b", ";;name=b"), 2, ";name=b", "two semicolons stand in a row");
    let comma = "a field is empty: a comma stands at an end, or two in a row";
    out(&with("=a,", "=a,,"), 1, ",size=512", comma);
    out(&(with("=a", "=a") + ","), 2, "", comma);
    let fields = "is no field; name, size, uuid, start, type and bootable are";
    out(&with("name=a", "Name=a"), 1, "Name", &format!("\"Name\" {fields}"));
    out(&with("name=a", "attrs=4"), 1, "attrs", &format!("\"attrs\" {fields}"));
    out(&with("name=a", "name"), 1, "name,", "name needs = and a value");
    out(&with("bootable", "bootable=1"), 2, "bootable", "bootable stands alone, without =");
    let once = "uuid_disk stands once, at the beginning of the string";
    out(&with("name=a", "uuid_disk=x,name=a"), 1, "uuid_disk=x", once);
    out(&with("size=512", "size=512,size=512"), 1, "size=512,uuid", "size stands twice");
    out(&with("bootable", "bootable,bootable"), 2, "bootable,uuid", "bootable stands twice");
    out(&with("size=512,", ""), 1, "name=a", "it has no size");
    let uuid = unique(2);
    out(&with(&format!(",uuid={uuid}"), ""), 2, "name=b", "it has no uuid");
    let rest = format!("name=a,size=512,uuid={}", unique(1));
    out(&with(&rest, "bootable"), 1, "bootable", "it has no name and no size and no uuid");
}

#[test]
fn names_and_guids() {
    out(&with("name=a", "name="), 1, ",size=512", "the name is empty; it has 1 to 36 bytes");
    let long = "x".repeat(37);
    let cause = format!("the name has 37 bytes; it has 1 to 36: \"{long}\"");
    out(&with("=a,", &format!("={long},")), 1, &long, &cause);
    let in_name = ONLY.replace("string", "name");
    out(&with("=a,", "=Größe,"), 1, "öße", &format!("the byte C3 hex {in_name}"));
    out(&with("=a,", "=\x7F,"), 1, "\x7F", &format!("the byte 7F hex {ONLY}"));
    out(&with("=a,", "=EFI System,"), 1, " ", &format!("a blank {in_name}"));
    let uuid = unique(2);
    let cause = format!("uuid is no GUID ({DIGITS}): \"{}\"", &uuid[1..]);
    out(&with(&uuid, &uuid[1..]), 2, &uuid[1..], &cause);
    let kinds = "type is no GUID and none of system, msft, data, linux, swap";
    out(&with("=linux", "=Linux"), 2, "Linux", &format!("{kinds}: \"Linux\""));
    out(&with("=linux", "="), 2, ",bootable", &format!("{kinds}: \"\""));
    // Short names that the boot loader has beside those of this library.
    for (name, guid) in [
        ("mbr", "024DEE41-33E7-11D3-9D69-0008C781F39F"),
        ("raid", "A19D880F-05FC-4D3B-A006-743F0F84911E"),
        ("lvm", "E6D6D379-F507-44C2-A23C-238F2A3DF928"),
    ] {
        let cause = format!("{kinds}: \"{name}\"; type={guid} says it");
        out(&with("=linux", &format!("={name}")), 2, name, &cause);
    }
}

#[test]
fn numbers() {
    let no_number = "size is no number";
    out(&with("=512", "="), 1, ",uuid", &format!("{no_number}: \"\"; decimal digits come first"));
    out(&with("=512", "=-1"), 1, "-1,", &format!("{no_number}: \"-1\"; decimal digits come first"));
    out(&with("=512", "=0x200"), 1, "0x200", "size is no decimal number: \"0x200\"");
    out(&with("=512", "=60Mib"), 1, "60Mib", &format!("size has \"Mib\" {SUFFIXES}"));
    out(&with("=1MiB", "=1M"), 2, "1M,", &format!("start has \"M\" {SUFFIXES}"));
    out(&with("=1MiB", "=1.5MiB"), 2, "1.5", &format!("start has \".5MiB\" {SUFFIXES}"));
    for large in ["18446744073709551616", "18014398509481984KiB", "17179869184GiB"] {
        let cause = format!("size is not below 2^64 bytes: \"{large}\"");
        out(&with("=512", &format!("={large}")), 1, large, &cause);
    }
}

/// Blanks, line ends and variables: with a program that takes them out or fills them in.
#[test]
fn what_a_program_mends() {
    let folder = Folder::new();
    let image = folder.sparse("disk.img", 1 << 20);
    let path = image.to_str().expect("UTF-8");
    let blanks = ("tr -d '[:space:]'", "takes blanks and line ends out");
    let variables = ("envsubst", "fills in what the environment has (fw_printenv prints U-Boot's)");
    let size = "\"${uboot_size}\" is not filled in";
    for (text, partition, begins, cause, (program, does)) in [
        (with(",size=512", ", size=512"), 1, " ", &format!("a blank {ONLY}"), blanks),
        (with("=a,", "=a ,"), 1, " ", &format!("a blank {ONLY}"), blanks),
        (with(",size=512", ",\tsize=512"), 1, "\t", &format!("a tab {ONLY}"), blanks),
        (with(";name=b", ";\nname=b"), 2, "\n", &format!("a line feed {ONLY}"), blanks),
        (with("=linux", "=linux\r"), 2, "\r", &format!("a carriage return {ONLY}"), blanks),
        (with("=512", "=${uboot_size}"), 1, "${", &size.to_string(), variables),
        (with("=512", "=1${uboot_size}"), 1, "${", &size.to_string(), variables),
        (with("name=b", "name=${b},${c}"), 2, "${c", &"\"${c}\" is not filled in".into(), variables),
        (with(DISK, "${disk"), 0, "${", &"\"${disk\" is not filled in".into(), variables),
        ("${all}".into(), 0, "${", &"\"${all}\" is not filled in".into(), variables),
    ] {
        let cause = place(&text, partition, begins).1 + cause;
        refused(&["gpt", "build", path, "--text", &text], 70, FORM, &format!("{cause}; {program} {does}"));
        let layout = folder.file("layout.txt", text.clone() + "\n");
        let ended = run!["gpt", "build", image, layout];
        let line = format!("{program} <{} | usigrambal gpt build {path} -", layout.display());
        assert_eq!(ended.hint(), format!("{cause}; {line} {does}"));
        assert_eq!(ended.refused(70), format!("{}: {FORM}", layout.display()));
        let json = json::parse(&run!["gpt", "build", image, layout, "--json"].out).expect("JSON");
        assert_eq!((json.text("layout"), json.number("refused")), (layout.to_str().expect("UTF-8"), 70));
        let words = ["gpt", "build", path, "-"].map(OsStr::new);
        assert_eq!(common::fed(&words, text.as_bytes()).hint(), format!("{cause}; {program} {does}"));
    }
}

/// What the advice says, done.
#[test]
fn the_advice_helps() {
    let folder = Folder::new();
    let image = folder.sparse("disk.img", 4 << 20);
    let spread = string(&["name=a,size=512", "name=b,size=0"]).replace(';', ";\n\t").replace(',', ", ");
    let open = string(&["name=a,size=${size}"]);
    for (text, program, package) in [(spread, "tr", "coreutils"), (open, "envsubst", "gettext-base")] {
        if !peer::present(program, package) {
            continue;
        }
        let layout = folder.file("layout.txt", text + "\n");
        let hint = run!["gpt", "build", image, layout].hint();
        let (_, advice) = hint.split_once("; ").expect("an advised command");
        let (line, _) = advice.split_once(" - ").expect("standard input");
        let line = line.replace("usigrambal gpt", &format!("{} gpt", common::program()));
        let mut bash = Command::new("bash");
        let ended = bash.args(["-euc", &format!("{line} - --replace")]).env("size", "1MiB").output();
        assert_eq!(Ended::from(ended.expect("bash")).status, Some(0), "{line}");
    }
}

/// A string is refused on a disk of 100 blocks, of which 34 to 66 are usable, for a partition and with a hint.
#[track_caller]
fn on_100_blocks(text: &str, number: u32, said: &str, hint: &str) {
    let folder = Folder::new();
    let image = folder.sparse("disk.img", 100 * 512);
    let words = ["gpt", "build", image.to_str().expect("UTF-8"), "--text", text, "--align", "1"];
    refused(&words, number, said, hint);
    let words: Vec<&OsStr> = words.iter().chain(&["--json"]).map(OsStr::new).collect();
    let json = json::parse(&common::run(&words).out).expect("JSON");
    let partition = said.split_once(": partition ").map(|(_, behind)| behind.split(' ').next());
    let Json::Object(fields) = &json else { panic!("{json:?}") };
    let told = fields.iter().find(|(name, _)| name == "partition").map(|_| json.number("partition"));
    assert_eq!(told, partition.map(|number| number.expect("a number").parse().expect("a number")));
    assert!(std::fs::read(&image).expect("an image").iter().all(|byte| *byte == 0));
}

/// At block 50.
const A: &str = "name=a,size=512,start=25600";

#[test]
fn no_whole_blocks() {
    let uneven = |parts: &[&str], partition: &str, hint: &str| {
        let said = format!("a start or a size is not a whole number of blocks: partition {partition}");
        let hint = format!("a block has 512 bytes, of which both must be multiples: {hint}");
        on_100_blocks(&string(parts), 71, &said, &hint);
    };
    uneven(&[A, "name=b,size=1000"], "2 \"b\"", "size=1000 is not; size=512 or size=1KiB would be");
    uneven(&["name=a,size=1"], "1 \"a\"", "size=1 is not; size=512 would be");
    let start = "start=513 is not; start=512 or start=1KiB would be";
    let size = "size=18446744073709551615 is not; size=18446744073709551104 would be";
    let both = "name=a,size=18446744073709551615,start=513";
    uneven(&[both], "1 \"a\"", &format!("{start}; {size}"));
}

#[test]
fn a_start_that_is_taken() {
    let taken = |parts: &[&str], partition: &str, hint: &str| {
        let said = format!("the start block is taken or not usable: partition {partition}");
        on_100_blocks(&string(parts), 72, &said, hint);
    };
    let lowest = "the lowest free one is start=17KiB (block 34)";
    for (start, whose) in [
        ("16KiB", "block 32: blocks 0 to 33 are the primary copy's"),
        ("34304", "block 67: blocks 67 to 99 are the backup copy's"),
        ("1GiB", "block 2097152: the disk's last block is 99"),
    ] {
        let part = format!("name=a,size=512,start={start}");
        taken(&[&part], "1 \"a\"", &format!("start={start} is {whose}; {lowest}"));
    }
    let whose = "start=25600 is block 50: partition 1 \"a\" has blocks 50 to 50";
    let next = "the next behind it start=26112 (block 51)";
    taken(&[A, "name=b,size=512,start=25600"], "2 \"b\"", &format!("{whose}; {lowest}, {next}"));
    let whose = "start=17KiB is block 34: partition 1 \"a\" has blocks 34 to 66";
    let full = ["name=a,size=16896", "name=b,size=512,start=17KiB"];
    taken(&full, "2 \"b\"", &format!("{whose}; no block is free"));
}

#[test]
fn no_room() {
    let no_room = |parts: &[&str], hint: &str| {
        on_100_blocks(&string(parts), 25, "no room: partition 2 \"b\"", hint);
    };
    let size = "its size is 17 blocks (8.5 KiB)";
    let from = "from block 34 on 16 blocks (8 KiB) are free";
    no_room(&[A, "name=b,size=8704,start=17KiB"], &format!("{size}, and {from}"));
    let runs = "the longest free run has 16 blocks (8 KiB); 32 blocks (16 KiB) are free in 2 runs";
    no_room(&[A, "name=b,size=8704"], &format!("{size}, and {runs}"));
    no_room(&["name=a,size=16896", "name=b,size=0"], "it takes what is left, and no block is free");
}

/// Where a smaller alignment has room for all, the hint names it.
#[test]
fn no_room_at_an_alignment() {
    let folder = Folder::new();
    let image = folder.sparse("disk.img", 100 * 512);
    let path = image.to_str().expect("UTF-8");
    for (size, asked) in [("512", "its size is 1 block (512 B)"), ("0", "it takes what is left")] {
        let text = string(&[&format!("name=a,size={size}")]);
        let none = "no run has that room at a multiple of 2048 blocks";
        let hint = format!("{asked}, and {none}; with --align 8 the string has room");
        refused(&["gpt", "build", path, "--text", &text], 25, "no room: partition 1 \"a\"", &hint);
        run!["gpt", "build", image, "--text", text, "--align", "8", "--dry-run"].done();
    }
    let align = "--align is 1 block (512 B), 8 blocks (4 KiB) or 2048 blocks (1 MiB)";
    let words = ["gpt", "build", path, "--text", &string(&[A]), "--align", "3"];
    refused(&words, 27, "the alignment is not 1, 8 or 2048 blocks: 3 blocks", align);
}

#[test]
fn what_no_two_partitions_have() {
    let taken = "the unique GUID is zero or already in a used slot";
    let two = string(&["name=a,size=512", "name=b,size=512"]).replace(&unique(2), &unique(1));
    let hint = format!("partition 1 has the uuid {} too; uuidgen prints a new one", unique(1));
    on_100_blocks(&two, 22, &format!("{taken}: partition 2 \"b\""), &hint);
    let zero = string(&["name=a,size=512"]).replace(&unique(1), ZEROS);
    let hint = "its uuid is all zero; uuidgen prints a new one";
    on_100_blocks(&zero, 22, &format!("{taken}: partition 1 \"a\""), hint);
    let said = "the name is already in another used slot: partition 3 \"a\"";
    let three = string(&["name=a,size=512", "name=b,size=512", "name=a,size=512"]);
    on_100_blocks(&three, 26, said, "partition 1 has the name too");
}

#[test]
fn sizes_types_and_slots() {
    let three = string(&["name=a,size=512", "name=b,size=0", "name=c,size=512"]);
    let hint = "size 0 is the rest of a free run in the last partition alone, and this is number 2 of 3";
    on_100_blocks(&three, 20, "the size is zero: partition 2 \"b\"", hint);
    let typeless = string(&[&format!("name=a,size=512,type={ZEROS}")]);
    let hint = "type is a GUID that is not zero, or one of system, msft, data, linux, swap; without it data";
    on_100_blocks(&typeless, 21, "the type GUID is zero: partition 1 \"a\"", hint);
    let zero = string(&["name=a,size=512"]).replace(DISK, ZEROS);
    let hint = "uuid_disk is all zero; uuidgen prints a GUID that is not";
    on_100_blocks(&zero, 3, "the disk GUID is all zero", hint);
    let many: Vec<String> = (0..130).map(|number| format!("name={number},size=512")).collect();
    let many = string(&many.iter().map(String::as_str).collect::<Vec<_>>());
    assert!(many.len() <= 8192);
    let folder = Folder::new();
    let image = folder.sparse("disk.img", 1 << 20);
    let words = ["gpt", "build", image.to_str().expect("UTF-8"), "--text", &many, "--align", "1"];
    let hint = "a table has 128 partitions, and the string has 130";
    refused(&words, 24, "no unused slot: partition 129 \"128\"", hint);
}
