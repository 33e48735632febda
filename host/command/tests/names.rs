//! Names: no two partitions get one name, and disks on which two have one are read and told.

mod common;

use common::image::{both, Image};
use common::{clear_types, disk, refused, set_name, Folder};
use std::ffi::OsStr;
use std::fs;
use std::path::Path;
use testkit::json::{self, Json};
use testkit::peer;

const TAKEN: &str = "the name is already in another used slot";
const GUID: &str = "01234567-89AB-4CDE-8F01-23456789ABCD";

impl Image {
    /// As it stands in an advised command.
    fn operand(&self) -> String {
        match self.block {
            512 => self.text().to_string(),
            block => format!("{} --block {block}", self.text()),
        }
    }

    fn add(&self, name: &str) {
        self.call("add", &["--size", "1", "--align", "1", "--name", name]).done();
    }

    /// Partitions of one block with these names, whoever else has them.
    fn called(&self, names: &[&str]) {
        for (slot, name) in (1..).zip(names) {
            self.call("add", &["--size", "1", "--align", "1"]).done();
            set_name(&self.path, self.block, [slot], name);
        }
    }

    /// Refused with 26 for this name, and with this hint; a dry run too, and no byte changes.
    #[track_caller]
    fn taken(&self, verb: &str, more: &[&str], name: &str, hint: &str) {
        let before = self.bytes();
        let said = format!("{TAKEN}: \"{name}\"");
        refused(&self.words(verb, more), 26, &said, hint);
        refused(&self.words(verb, &[more, &["--dry-run"]].concat()), 26, &said, hint);
        assert!(self.bytes() == before);
    }

    /// How the name becomes free that one partition has.
    fn freed(&self, slot: u64) -> String {
        let disk = self.operand();
        format!("usigrambal gpt rename {disk} {slot} NAME gives that one another")
    }

    fn freed_of_each(&self) -> String {
        let disk = self.operand();
        format!("usigrambal gpt rename {disk} NUMBER NAME gives each of them another")
    }

    /// The warning of `gpt verify` about partitions of one name.
    fn warning(&self, numbers: &str, name: &str) -> String {
        format!(
            "{}: partitions {numbers} have one name, \"{name}\": a boot loader that goes by names finds only one of them; \
             usigrambal gpt rename {} NUMBER NAME tells them apart",
            self.text(),
            self.operand()
        )
    }
}

/// `shared_names` of a document: the names, and the numbers of the partitions.
fn shared(document: &Json) -> Vec<(String, Vec<u64>)> {
    let number = |number: &Json| match number {
        Json::Number(number) => *number,
        other => panic!("no number: {other:?}"),
    };
    let one = |one: &Json| (one.text("name").to_string(), one.list("numbers").iter().map(number).collect());
    document.list("shared_names").iter().map(one).collect()
}

fn warnings(document: &Json) -> Vec<String> {
    let text = |warning: &Json| match warning {
        Json::Text(text) => text.clone(),
        other => panic!("no text: {other:?}"),
    };
    document.list("warnings").iter().map(text).collect()
}

#[test]
fn an_add_of_a_name_that_is_taken() {
    let folder = Folder::new();
    for image in both(&folder) {
        ["boot", "scratch\n", "", ""].iter().for_each(|name| image.add(name));
        let hint = |slot| format!("partition {slot} has it; choose another --name, or {}", image.freed(slot));
        let add = |name, size| ["--align", "1", "--name", name, "--size", size];
        image.taken("add", &add("boot", "1"), "boot", &hint(1));
        image.taken("add", &add("scratch\n", "1"), "scratch\\n", &hint(2));
        // Before there is no room, and after a unique GUID that is taken.
        image.taken("add", &add("boot", "1T"), "boot", &hint(1));
        image.call("rename", &["3", "x"]).done();
        let unique = image.call("show", &["--json"]).json().list("partitions")[0].text("guid").to_string();
        image.call("add", &[&add("boot", "1")[..], &["--guid", &unique]].concat()).refused(22);
        // Upper case is another name, and so is one that goes on.
        ["Boot", "boot ", "boo"].iter().for_each(|name| image.add(name));
    }
}

/// Before no slot is unused.
#[test]
fn an_add_to_a_full_table() {
    let folder = Folder::new();
    let image = Image { path: disk(&folder, "disk.img", 1000), block: 512 };
    (1..=128).for_each(|number| image.add(&format!("p{number}")));
    let hint = format!("partition 128 has it; choose another --name, or {}", image.freed(128));
    image.taken("add", &["--size", "1", "--name", "p128"], "p128", &hint);
    image.call("add", &["--size", "1", "--name", "p129"]).refused(24);
}

#[test]
fn a_rename_to_a_name_that_is_taken() {
    let folder = Folder::new();
    for image in both(&folder) {
        ["boot", "pages", "7"].iter().for_each(|name| image.add(name));
        let hint = |slot| format!("partition {slot} has it; choose another NAME, or {}", image.freed(slot));
        image.taken("rename", &["pages", "boot"], "boot", &hint(1));
        image.taken("rename", &["1", "pages"], "pages", &hint(2));
        image.taken("rename", &["1", "7"], "7", &hint(3));
        // Its own name is no change.
        let renamed = image.call("rename", &["boot", "boot", "--json"]).json();
        assert_eq!((renamed.text("name"), renamed.at("changed")), ("boot", &Json::Bool(false)));
        // A slot that is no partition is told first.
        image.call("rename", &["9", "boot"]).refused(13);
        image.call("rename", &["1", ""]).done();
        image.call("rename", &["2", ""]).done();
        image.call("rename", &["3", "boot"]).done();
    }
}

/// What the hint advises does free it, and so does a delete.
#[test]
fn advised_command_frees_the_name() {
    let folder = Folder::new();
    for image in both(&folder) {
        ["boot", "pages"].iter().for_each(|name| image.add(name));
        let add = ["--size", "1", "--align", "1", "--name", "boot"];
        let hint = image.call("add", &add).hint();
        let (_, advised) = hint.split_once(", or usigrambal ").expect("a command");
        let rename = advised.trim_end_matches(" gives that one another").replace("NAME", "old");
        let before = image.bytes();
        common::run(&rename.split(' ').map(OsStr::new).collect::<Vec<_>>()).done();
        image.call("add", &add).done();
        fs::write(&image.path, &before).expect("an image");
        image.call("delete", &["boot"]).done();
        image.call("add", &add).done();
    }
}

/// Disks that hold doubles: all that have the name are named.
#[test]
fn names_that_several_have() {
    let folder = Folder::new();
    for image in both(&folder) {
        image.called(&["scratch", "a", "scratch", "scratch", "b"]);
        let add = ["--size", "1", "--align", "1", "--name", "scratch"];
        let all = format!("partitions 1, 3, 4 have it; choose another --name, or {}", image.freed_of_each());
        image.taken("add", &add, "scratch", &all);
        let all = format!("partitions 1, 3, 4 have it; choose another NAME, or {}", image.freed_of_each());
        image.taken("rename", &["a", "scratch"], "scratch", &all);
        let own = format!(
            "partition 3 has it already, but partitions 1, 4 have it too; choose another NAME, or {}",
            image.freed_of_each()
        );
        image.taken("rename", &["3", "scratch"], "scratch", &own);
        image.call("delete", &["4"]).done();
        let own = format!(
            "partition 3 has it already, but partition 1 has it too; choose another NAME, or {}",
            image.freed(1)
        );
        image.taken("rename", &["3", "scratch"], "scratch", &own);
        // By name they are not told apart; by number one of them gets another name, and then the other is alone.
        let ended = image.call("rename", &["scratch", "pages"]);
        assert_eq!(ended.hint(), "the numbers 1, 3 tell them apart");
        ended.usage("2 partitions are called \"scratch\"");
        image.call("rename", &["3", "pages"]).done();
        image.call("rename", &["scratch", "scratch"]).done();
        assert_eq!(shared(&image.call("show", &["--json"]).json()), []);
    }
}

/// A warning for each name, and the answer and the exit status of a disk without.
#[test]
fn verify_warns() {
    let folder = Folder::new();
    for image in both(&folder) {
        image.called(&["x", "a", "", "b", ""]);
        let plain = image.call("verify", &[]).done();
        assert!(warnings(&image.call("verify", &["--json"]).json()).is_empty());
        set_name(&image.path, image.block, [2, 3, 5], "scratch\n");
        set_name(&image.path, image.block, [1, 4], "x");
        let ended = image.call("verify", &[]);
        let told = [image.warning("1, 4", "x"), image.warning("2, 3, 5", "scratch\\n")];
        let lines = told.each_ref().map(|warning| format!("usigrambal: warning: {warning}\n"));
        assert_eq!((ended.status, ended.out, ended.err), (Some(0), plain, lines.concat()));
        let ended = image.call("verify", &["--json"]);
        assert_eq!((ended.status, ended.err), (Some(0), lines.concat()));
        let json = json::parse(&ended.out).expect("JSON");
        assert_eq!((json.at("verified"), json.at("hint")), (&Json::Bool(true), &Json::Null));
        assert_eq!(warnings(&json), told);
        assert_eq!(shared(&json), [("x".to_string(), vec![1, 4]), ("scratch\n".to_string(), vec![2, 3, 5])]);
    }
}

/// What else a check finds stays what it is.
#[test]
fn verify_warns_beside_what_it_finds() {
    let folder = Folder::new();
    let [image, _] = both(&folder);
    image.called(&["a", "a", "b"]);
    clear_types(&image.path, image.block, [3]);
    let ended = image.call("verify", &[]);
    let note = "1 unused entry holds bytes of a deleted partition (slot 3)";
    assert!(ended.out.contains(note) && ended.err.contains("partitions 1, 2 have one name, \"a\""));
    assert_eq!(ended.status, Some(0));
    // The names of the copy in use.
    let mut bytes = image.bytes();
    image.call("rename", &["1", "c"]).done();
    let behind = image.bytes().split_off(17_408);
    bytes.splice(17_408.., behind);
    fs::write(&image.path, &bytes).expect("an image");
    let ended = image.call("verify", &["--json"]);
    let json = json::parse(&ended.out).expect("JSON");
    assert_eq!((ended.status, json.number("state")), (Some(1), 2));
    assert_eq!(shared(&json), [("a".to_string(), vec![1, 2])]);
    common::spoil(&image.path, 512);
    let ended = image.call("verify", &["--json"]);
    let json = json::parse(&ended.out).expect("JSON");
    assert_eq!((ended.status, json.number("state")), (Some(1), 4));
    assert_eq!((shared(&json), warnings(&json)), (vec![], vec![]));
}

/// Of several disks each warning says which it is about.
#[test]
fn several_disks() {
    let folder = Folder::new();
    let [one, _] = both(&folder);
    let two = Image { path: disk(&folder, "two.img", 100), block: 512 };
    one.called(&["a", "b"]);
    two.called(&["a", "a"]);
    let ended = run!["gpt", "verify", one.path, two.path];
    let warning = format!("usigrambal: warning: {}\n", two.warning("1, 2", "a"));
    assert_eq!((ended.status, ended.err), (Some(0), warning));
}

/// What is shown is what is shown of other names, and a line more for each.
#[test]
fn show_tells_them() {
    let folder = Folder::new();
    for image in both(&folder) {
        image.called(&["x", "y", "aa", "ab", "ac"]);
        let plain = image.call("show", &[]).done();
        assert_eq!(shared(&image.call("show", &["--json"]).json()), []);
        set_name(&image.path, image.block, [2], "x");
        set_name(&image.path, image.block, [4, 5], "aa");
        let shown = image.call("show", &[]).done();
        let lines = "same name:     partitions 1, 2: \"x\"\nsame name:     partitions 3 to 5: \"aa\"\n";
        let (head, rest) = shown.split_once("\n\n").expect("a head");
        assert!(format!("{head}\n").ends_with(lines), "{head}");
        let renamed = rest.lines().zip(plain.split_once("\n\n").expect("a head").1.lines());
        let others = renamed.filter(|(now, before)| now != before).count();
        assert_eq!(others, 3);
        assert_eq!(
            format!("{head}\n").replace(lines, ""),
            format!("{}\n", plain.split_once("\n\n").expect("a head").0)
        );
        let json = image.call("show", &["--json"]).json();
        assert_eq!(shared(&json), [("x".to_string(), vec![1, 2]), ("aa".to_string(), vec![3, 4, 5])]);
        image.call("free", &[]).done();
        image.call("repair", &[]).done();
    }
}

/// Two names that print alike and differ behind a zero are two. By its text either is asked for.
#[test]
fn names_that_print_alike() {
    let folder = Folder::new();
    for image in both(&folder) {
        image.called(&["ab\0z", "x"]);
        let plain = image.call("verify", &[]).done();
        image.call("rename", &["x", "ab"]).done();
        assert_eq!(image.call("verify", &[]).done(), plain);
        assert!(!image.call("show", &[]).done().contains("same name"));
        let ended = image.call("delete", &["ab"]);
        assert_eq!(ended.hint(), "the numbers 1, 2 tell them apart");
        ended.usage("2 partitions are called \"ab\"");
        // To the one that has it, and to the other one.
        image.call("rename", &["2", "ab"]).done();
        let hint = format!("partition 2 has it; choose another NAME, or {}", image.freed(2));
        image.taken("rename", &["1", "ab"], "ab", &hint);
        // Two that are the same in all 72 bytes are told with them.
        image.call("add", &["--size", "1", "--align", "1"]).done();
        set_name(&image.path, image.block, [3], "ab\0z");
        let ended = image.call("verify", &["--json"]);
        let json = json::parse(&ended.out).expect("JSON");
        assert_eq!((ended.status, shared(&json)), (Some(0), vec![("ab".to_string(), vec![1, 3])]));
        assert_eq!(json.list("shared_names")[0].list("name_units").len(), 36);
    }
}

/// The name of a deleted partition is free, also where its bytes are left.
#[test]
fn names_of_unused_slots_are_free() {
    let folder = Folder::new();
    for image in both(&folder) {
        ["a", "scratch", "c"].iter().for_each(|name| image.add(name));
        clear_types(&image.path, image.block, [2]);
        image.call("rename", &["3", "scratch"]).done();
        image.call("delete", &["3"]).done();
        image.add("scratch");
        assert_eq!(shared(&image.call("show", &["--json"]).json()), []);
    }
}

/// sgdisk gives two partitions one name.
#[test]
fn doubles_by_sgdisk() {
    if !peer::present("sgdisk", "gdisk") {
        return;
    }
    let folder = Folder::new();
    let image = Image { path: folder.sparse("disk.img", 100 * 512), block: 512 };
    let unique = format!("5:{GUID}");
    let options = ["-a", "1", "-n", "1:34:39", "-n", "2:40:49", "-n", "5:50:59", "-u", &unique];
    let names = ["-c", "1:scratch", "-c", "2:pages", "-c", "5:scratch", image.text()];
    peer::printed("sgdisk", options.iter().chain(&names));
    let ended = image.call("verify", &[]);
    assert_eq!(ended.err, format!("usigrambal: warning: {}\n", image.warning("1, 5", "scratch")));
    assert_eq!(ended.status, Some(0));
    let shown = image.call("show", &["--json"]).json();
    assert_eq!(shared(&shown), [("scratch".to_string(), vec![1, 5])]);
    assert_eq!(common::partitions(&shown).len(), 3);
    // The unique GUID tells them apart too.
    image.call("rename", &[GUID, "logs"]).done();
    image.call("verify", &[]).done();
    let said = peer::printed("sgdisk", [Path::new("-v"), &image.path]);
    assert!(said.contains("No problems found"), "{said}");
}
