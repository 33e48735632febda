//! Power lost between the two writes of a disk, and writes that fail: the disk still reads, and repair makes it whole.

mod common;

use common::disturbed::{disturbed, logged};
use common::strings::string;
use common::{add, at_4096, disk, disk_of_4096, Ended, Folder, Loop};
use std::fs;
use std::path::PathBuf;
use testkit::json;

const HEAD: usize = 17_408;

struct Tried {
    _folder: Folder,
    path: PathBuf,
    before: Vec<u8>,
    after: Vec<u8>,
    ended: Ended,
}

/// A disk of 1000 blocks with a partition, on which an add is disturbed.
fn disturbed_add(how: &str) -> Tried {
    let folder = Folder::new();
    let path = disk(&folder, "disk.img", 1000);
    add(&path, "10", "first");
    let before = fs::read(&path).expect("an image");
    let text = path.to_str().expect("UTF-8");
    let words = ["gpt", "add", text, "--size", "20", "--align", "1", "--name", "second"];
    let ended = disturbed(how, &folder.path("log"), &words);
    let after = fs::read(&path).expect("an image");
    Tried { _folder: folder, path, before, after, ended }
}

impl Tried {
    fn head_changed(&self) -> bool {
        self.before[..HEAD] != self.after[..HEAD]
    }

    fn tail_changed(&self) -> bool {
        self.before[HEAD..] != self.after[HEAD..]
    }

    /// The disk reads, says so, and repair makes both copies good and the same; how many partitions there are then.
    fn repaired(&self, state: u64) -> usize {
        let path = &self.path;
        let shown = run!["gpt", "show", path, "--json"].json();
        assert_eq!(shown.number("state"), state, "{}", shown.text("copies"));
        assert_eq!(run!["gpt", "verify", path].status, Some(1));
        run!["gpt", "repair", path].done();
        let shown_after = run!["gpt", "show", path, "--json"].json();
        assert_eq!(shown_after.number("state"), 1);
        assert_eq!(shown_after.list("partitions"), shown.list("partitions"));
        run!["gpt", "verify", path].done();
        run!["gpt", "add", path, "--size", "1", "--align", "1"].done();
        shown.list("partitions").len()
    }
}

/// Rule D10: the primary is used, so that the add is not made.
#[test]
fn killed_between_the_two_writes() {
    let tried = disturbed_add("kill:2");
    assert_eq!(tried.ended.status, None, "{}", tried.ended.err);
    assert!(tried.tail_changed() && !tried.head_changed());
    assert_eq!(tried.repaired(2), 1);
}

#[test]
fn killed_before_the_first_write() {
    let tried = disturbed_add("kill:1");
    assert_eq!((tried.ended.status, tried.before == tried.after), (None, true));
}

/// On a disk without a table the backup alone is there then, and block 0 has no record.
#[test]
fn killed_while_it_formats() {
    let folder = Folder::new();
    let path = folder.sparse("disk.img", 1000 * 512);
    let text = path.to_str().expect("UTF-8");
    let ended = disturbed("kill:2", &folder.path("log"), &["gpt", "format", text]);
    assert_eq!(ended.status, None);
    let shown = |path: &PathBuf| json::parse(&run!["gpt", "show", path, "--json"].out).expect("JSON");
    let before = shown(&path);
    assert_eq!(before.number("state"), 4);
    run!["gpt", "repair", path].done();
    assert_eq!(shown(&path).text("guid"), before.text("guid"));
    let ended = run!["gpt", "verify", path];
    let hint =
        format!("hint: usigrambal gpt format {text} --replace writes the record, with an empty table\n");
    assert!(ended.status == Some(1) && ended.out.ends_with(&hint), "{}", ended.out);
    run!["gpt", "format", path, "--replace"].done();
    run!["gpt", "verify", path].done();
}

/// Over a table that is there: the old one is used then, and the same call again builds the new one.
#[test]
fn killed_while_it_builds() {
    let folder = Folder::new();
    let path = disk(&folder, "disk.img", 1000);
    add(&path, "10", "old");
    let string = string(&["name=new,size=512", "name=rest,size=0"]);
    let words =
        ["gpt", "build", path.to_str().expect("UTF-8"), "--text", &string, "--align", "1", "--replace"];
    assert_eq!(disturbed("kill:2", &folder.path("log"), &words).status, None);
    let shown = |path: &PathBuf| run!["gpt", "show", path, "--json"].json();
    let names = |path: &PathBuf| {
        let partitions = common::partitions(&shown(path));
        partitions.into_iter().map(|partition| partition.name).collect::<Vec<_>>()
    };
    assert_eq!((shown(&path).number("state"), names(&path)), (2, vec!["old".to_string()]));
    disturbed("", &folder.path("log"), &words).done();
    assert_eq!(
        (shown(&path).number("state"), names(&path)),
        (1, vec!["new".to_string(), "rest".to_string()])
    );
    run!["gpt", "verify", path].done();
}

/// What was written, what was not, and a next step that works: no repair where there is no table.
#[test]
fn a_new_table_that_fails() {
    let string = string(&["name=a,size=512"]);
    fails(&["format"]);
    fails(&["build", "--align", "1", "--text", &string]);
}

fn fails(call: &[&str]) {
    for (how, said, hint, replace) in [
        (
            "full:1",
            "no byte was: No space left",
            "the disk is as it was; the same call can be made again",
            false,
        ),
        ("short:1", "the primary copy was not touched, the backup copy was not wholly", "", true),
        ("flush:1", "the primary copy was not touched, the backup copy was not wholly", "", true),
        ("full:2", "the backup copy was written, the primary copy was not", "", true),
        ("short:2", "the backup copy was written, the primary copy was not wholly", "", true),
    ] {
        let folder = Folder::new();
        let path = folder.sparse("disk.img", 1000 * 512);
        let text = path.to_str().expect("UTF-8");
        let words = [&["gpt"], call, &[text]].concat();
        let ended = disturbed(how, &folder.path("log"), &words);
        assert!(ended.status == Some(3) && ended.err.contains(said), "{how}: {}", ended.err);
        let anew = "the same call with --replace writes both copies anew";
        assert_eq!(ended.hint(), if replace { anew } else { hint }, "{how}");
        let more: &[&str] = if replace { &["--replace"] } else { &[] };
        disturbed("", &folder.path("log"), &[&words, more].concat()).done();
        run!["gpt", "verify", path].done();
    }
}

/// The edit is made; where the table can be seen is told.
#[test]
fn a_report_that_cannot_be_printed() {
    let folder = Folder::new();
    let path = disk(&folder, "disk.img", 1000);
    for words in [&["--json"][..], &[]] {
        let full = fs::File::options().write(true).open("/dev/full").expect("/dev/full");
        let mut command = common::command();
        command.args(["gpt", "add", "--size", "1", "--align", "1"]).arg(&path).args(words).stdout(full);
        let ended = Ended::from(command.output().expect("the command"));
        let text = path.display();
        let hint = format!("{text} was written, both copies; usigrambal gpt show {text} shows the table");
        assert_eq!(ended.hint(), hint);
        ended.unusable("standard output cannot be written: No space left on device");
    }
    assert_eq!(run!["gpt", "show", path, "--json"].json().list("partitions").len(), 2);
}

#[test]
fn no_space_for_the_primary() {
    let tried = disturbed_add("full:2");
    assert_eq!((tried.ended.status, tried.ended.out.as_str()), (Some(3), ""));
    let said = "could not be written: the backup copy was written, the primary copy was not: No space left on device";
    let path = tried.path.display();
    let hint = format!(
        "usigrambal gpt repair {path} makes both copies alike, gpt show then tells which table holds"
    );
    assert_eq!(tried.ended.err, format!("usigrambal: {path} {said}\nhint: {hint}\n"));
    assert!(tried.tail_changed() && !tried.head_changed());
    assert_eq!(tried.repaired(2), 1);
}

/// The new header without its entries: the primary is not good, the backup has the new table.
#[test]
fn a_short_write_of_the_primary() {
    let tried = disturbed_add("short:2");
    let said = "the backup copy was written, the primary copy was not wholly: 600 of 17408 bytes were written, then: No space";
    assert!(tried.ended.err.contains(said), "{}", tried.ended.err);
    assert_eq!(tried.ended.status, Some(3));
    assert!(tried.head_changed());
    assert_eq!(tried.repaired(4), 2);
}

#[test]
fn a_short_write_of_the_backup() {
    let tried = disturbed_add("short:1");
    let said =
        "the primary copy was not touched, the backup copy was not wholly: 600 of 16896 bytes were written";
    assert!(tried.ended.err.contains(said), "{}", tried.ended.err);
    assert!(tried.tail_changed() && !tried.head_changed());
    assert_eq!(tried.repaired(3), 1);
}

#[test]
fn nothing_is_taken() {
    let tried = disturbed_add("none:1");
    let said = "could not be written, and no byte was: ";
    assert!(tried.ended.err.contains(said), "{}", tried.ended.err);
    assert_eq!((tried.ended.status, tried.before == tried.after), (Some(3), true));
}

#[test]
fn a_flush_that_fails() {
    let tried = disturbed_add("flush:1");
    let said = "the primary copy was not touched, the backup copy was not wholly: Input/output error, when its bytes were to be flushed";
    assert!(tried.ended.err.contains(said), "{}", tried.ended.err);
    assert!(tried.tail_changed() && !tried.head_changed());
    assert_eq!(tried.repaired(2), 1);
}

/// Backup, flush, primary, flush; a copy that does not change is not written, and what is refused writes nothing.
#[test]
fn the_order_of_writes() {
    let folder = Folder::new();
    let path = disk(&folder, "disk.img", 1000);
    let text = path.to_str().expect("UTF-8");
    let written = |words: &[&str]| logged(&folder, words);
    let tail = format!("write {} 16896\nflush 0 0\n", 967 * 512);
    let head = "write 0 17408\nflush 0 0\n";
    assert_eq!(written(&["gpt", "add", text, "--size", "20", "--align", "8"]), format!("{tail}{head}"));
    let string = string(&["name=a,size=512,start=17KiB"]);
    let build = ["gpt", "build", text, "--text", &string, "--replace"];
    assert_eq!(written(&[&build[..], &["--dry-run"]].concat()), "");
    assert_eq!(written(&build), format!("{tail}{head}"));
    assert_eq!(written(&build), "");
    assert_eq!(written(&["gpt", "format", text, "--replace"]), format!("{tail}{head}"));
    assert_eq!(written(&build[..5]), "");
    common::spoil(&path, 512);
    assert_eq!(written(&["gpt", "repair", text, "--dry-run"]), "");
    assert_eq!(written(&["gpt", "repair", text]), head);
    common::spoil(&path, 999 * 512);
    assert_eq!(written(&["gpt", "repair", text]), tail);
    for words in [&["repair"][..], &["show"], &["verify"], &["check"], &["free"], &["delete", "7"]] {
        let (verb, rest) = words.split_first().expect("a verb");
        assert_eq!(written(&[&["gpt", verb, text], rest].concat()), "", "{words:?}");
    }
}

/// The same with blocks of 4096 bytes: 6 in front, 5 behind.
#[test]
fn the_order_of_longer_blocks() {
    let folder = Folder::new();
    let path = disk_of_4096(&folder, "disk.img", 100);
    let text = path.to_str().expect("UTF-8");
    let written = |words: &[&str]| logged(&folder, words);
    let tail = format!("write {} 20480\nflush 0 0\n", 95 * 4096);
    let head = "write 0 24576\nflush 0 0\n";
    let block = ["--block", "4096"];
    let at = |words: &[&str]| written(&[&["gpt"], words, &block].concat());
    assert_eq!(at(&["add", text, "--size", "20", "--align", "8"]), format!("{tail}{head}"));
    assert_eq!(at(&["format", text, "--replace"]), format!("{tail}{head}"));
    common::spoil(&path, 4096);
    assert_eq!(at(&["repair", text]), head);
    common::spoil(&path, 99 * 4096);
    assert_eq!(at(&["repair", text]), tail);
    // What reads with 4096 alone is not written without the word.
    for words in [&["add", text, "--size", "20"][..], &["repair", text], &["show", text], &["format", text]] {
        assert_eq!(written(&[&["gpt"], words].concat()), "", "{words:?}");
    }
}

/// With blocks of 4096 bytes: what is left reads, in that state, and the repair that is advised makes it whole.
#[test]
fn longer_blocks_that_are_cut() {
    for (how, state, partitions, said) in [
        ("kill:2", 2, 1, ""),
        ("full:2", 2, 1, "the backup copy was written, the primary copy was not: No space"),
        ("short:2", 2, 1, "the primary copy was not wholly: 600 of 24576 bytes were written"),
        ("short:1", 3, 1, "the backup copy was not wholly: 600 of 20480 bytes were written"),
    ] {
        let folder = Folder::new();
        let path = disk_of_4096(&folder, "disk.img", 100);
        at_4096("add", &path, &["--size", "10", "--align", "1"]).done();
        let text = path.to_str().expect("UTF-8");
        let words = ["gpt", "add", text, "--size", "20", "--align", "1", "--block", "4096"];
        let ended = disturbed(how, &folder.path("log"), &words);
        assert!(ended.err.contains(said), "{how}: {}", ended.err);
        let repair = format!("usigrambal gpt repair {text} --block 4096 makes both copies alike");
        assert!(how == "kill:2" || ended.hint().starts_with(&repair), "{how}: {}", ended.err);
        let shown = run!["gpt", "show", path, "--json"].json();
        assert_eq!((shown.number("state"), shown.list("partitions").len()), (state, partitions), "{how}");
        at_4096("repair", &path, &[]).done();
        run!["gpt", "verify", path].done();
        let shown = run!["gpt", "show", path, "--json"].json();
        assert_eq!(shown.list("partitions").len(), partitions, "{how}");
    }
}

/// A new table that was cut: the backup alone is there, and the reading verbs find it.
#[test]
fn killed_while_it_formats_longer_blocks() {
    let folder = Folder::new();
    let path = folder.sparse("disk.img", 100 * 4096);
    let text = path.to_str().expect("UTF-8");
    let words = ["gpt", "format", text, "--block", "4096"];
    assert_eq!(disturbed("kill:2", &folder.path("log"), &words).status, None);
    let shown = json::parse(&run!["gpt", "show", path, "--json"].out).expect("JSON");
    assert_eq!((shown.number("state"), shown.number("block_bytes")), (4, 4096));
    at_4096("format", &path, &["--replace"]).done();
    run!["gpt", "verify", path].done();
}

/// A new table over one of the other block size, cut in between: its backup is there, and the primary of the old one.
/// Both are told, and a repair goes by the word alone.
#[test]
fn killed_between_two_block_sizes() {
    let copies = |first: bool| match first {
        true => "the backup copy is not good; the primary is used",
        false => "the primary copy is not good; the backup is used",
    };
    for (old, new) in [("4096", "512"), ("512", "4096")] {
        for kept in [old, new] {
            let folder = Folder::new();
            let path = folder.sparse("disk.img", 100 * 4096);
            run!["gpt", "format", path, "--block", old].done();
            run!["gpt", "add", path, "--block", old, "--size", "8K", "--align", "1"].done();
            let text = path.to_str().expect("UTF-8");
            let words = ["gpt", "format", text, "--replace", "--block", new];
            assert_eq!(disturbed("kill:2", &folder.path("log"), &words).status, None);
            let ended = run!["gpt", "verify", path];
            assert!(ended.out.starts_with(&format!("{text}: {}\n", copies(old == "512"))), "{}", ended.out);
            let other = format!("one for blocks of 4096 bytes ({})", copies(old == "4096"));
            let warning = format!("usigrambal: warning: {text} has another table too, {other}\n");
            assert_eq!((ended.status, ended.err), (Some(1), warning));
            let before = fs::read(&path).expect("an image");
            for extra in ["--json", "--dry-run"] {
                let said = format!("{text} has a copy of a table for blocks of 512 bytes, and {other}");
                assert!(run!["gpt", "repair", path, extra].err.contains(&said));
            }
            run!["gpt", "repair", path].usage("--block says which one is meant");
            assert!(fs::read(&path).expect("an image") == before);
            run!["gpt", "repair", path, "--block", kept].done();
            let shown = json::parse(&run!["gpt", "show", path, "--json"].out).expect("JSON");
            assert_eq!(
                (shown.number("state"), shown.number("block_bytes").to_string()),
                (1, kept.to_string())
            );
            assert_eq!(shown.list("partitions").len(), usize::from(kept == old));
            run!["gpt", "repair", path, "--block", kept].done();
        }
    }
}

/// On a block device a carry writes in place.
#[test]
fn a_short_write_of_a_flash_device() {
    let folder = Folder::new();
    let layout = folder.file("board.fmd", "CHIP 64K { FMAP 1K CAL(PRESERVE)@2K 1K }");
    let (old, file) = (folder.path("old.bin"), folder.file("new.bin", vec![0; 65_536]));
    run!["fmd", "write", layout, old, "--create"].done();
    run!["fmd", "write", layout, file].done();
    let Some(device) = Loop::new(&file, &[]) else { return };
    let words = ["fmap", "carry", old.to_str().expect("UTF-8"), device.0.to_str().expect("UTF-8")];
    let ended = disturbed("short:1", &folder.path("log"), &words);
    let said = "could not be written: 600 of 1024 bytes were, then: No space left on device\nhint: the same call again writes what is missing";
    assert_eq!(ended.status, Some(3));
    assert!(ended.err.contains(said), "{}", ended.err);
    let bytes = fs::read(&device.0).expect("a device");
    assert_eq!((bytes[2047], bytes[2048], bytes[2647], bytes[2648]), (0, 0xFF, 0xFF, 0));
    run!["fmap", "carry", old, device.0].done();
    assert_eq!(fs::read(&device.0).expect("a device")[2048..3072], [0xFF; 1024]);
}

/// The new map stands before the one in front of it is retired: cut in between, the device still has a map.
#[test]
fn a_map_in_front_is_retired_last() {
    let folder = Folder::new();
    let low = folder.file("low.fmd", "CHIP 64K { FMAP 1K }");
    let high = folder.file("high.fmd", "CHIP 64K { FMAP@16K 1K }");
    let file = folder.file("new.bin", vec![0; 65_536]);
    run!["fmd", "write", low, file].done();
    let Some(device) = Loop::new(&file, &[]) else { return };
    let path = device.0.to_str().expect("UTF-8");
    let words = ["fmd", "write", high.to_str().expect("UTF-8"), path, "--retire"];
    let ended = disturbed("kill:2", &folder.path("log"), &words);
    assert_eq!(ended.status, None);
    assert_eq!(run!["fmap", "show", path, "--json"].status, Some(0));
    run!["fmd", "write", high, path, "--retire"].done();
    assert_eq!(run!["fmap", "show", path, "--json"].json().number("position"), 0x4000);
}
