//! Which block size a file is taken with, and what is told where another one reads.

mod common;

use common::{at_4096, disk, disk_of_4096, spoil, Ended, Folder};
use std::fs;
use std::os::unix::fs::FileExt;
use std::path::Path;
use testkit::json::{self, Json};

const READS: &str = "note: read with --block 4096, as it does not read with 512\n";

/// The verbs that only read go on with 4096 where 512 does not read, and say so.
#[test]
fn a_file_is_read_with_what_reads() {
    let folder = Folder::new();
    let image = disk_of_4096(&folder, "disk.img", 44);
    let small = disk(&folder, "small.img", 100);
    for verb in ["show", "free", "check", "verify"] {
        let named = at_4096(verb, &image, &[]).done();
        let found = run!["gpt", verb, image].done();
        assert!(
            !named.contains("note: ") && found.lines().any(|line| format!("{line}\n") == READS),
            "{found}"
        );
        assert_eq!(found.replace(READS, ""), named);
        let by = |json: Json| (json.number("block_bytes"), json.text("block_by").to_string());
        assert_eq!(by(run!["gpt", verb, image, "--json"].json()), (4096, "table".into()));
        assert_eq!(by(at_4096(verb, &image, &["--json"]).json()), (4096, "option".into()));
        assert_eq!(by(run!["gpt", verb, small, "--json"].json()), (512, "default".into()));
        assert_eq!(by(run!["gpt", verb, small, "--json", "--block", "512"].json()), (512, "option".into()));
    }
    // Where one copy alone is good too, and the next step says the block size.
    spoil(&image, 4096);
    let ended = run!["gpt", "verify", image];
    let path = image.display();
    let copies = "the primary copy is not good; the backup is used";
    let hint = format!("hint: usigrambal gpt repair {path} --block 4096 makes both copies alike\n");
    assert_eq!((ended.status, ended.out), (Some(1), format!("{path}: {copies}\n{READS}{hint}")));
    let refused = at_4096("add", &image, &["--size", "1"]);
    let repair = format!("usigrambal gpt repair {path} --block 4096 writes the primary from the backup");
    assert_eq!(refused.hint(), format!("{copies}; {repair}"));
    refused.refused(11);
    let json = run!["gpt", "show", image, "--json"].json();
    assert_eq!((json.number("state"), json.text("block_by")), (4, "table"));
}

/// What writes does not guess; a block size that is named is not left either.
#[test]
fn the_hint_names_the_block_size_that_reads() {
    let folder = Folder::new();
    let (long, short) = (disk_of_4096(&folder, "long.img", 44), disk(&folder, "short.img", 352));
    let before = [&long, &short].map(|path| fs::read(path).expect("an image"));
    let verbs: [&[&str]; 5] = [
        &["add", "--size", "1"],
        &["delete", "1"],
        &["resize", "1", "1"],
        &["rename", "1", "x"],
        &["repair"],
    ];
    let refused = |path: &Path, words: &[&str], block: &[&str], hint: &str| {
        let mut command = common::command();
        command.args(["gpt", words[0]]).arg(path).args(&words[1..]).args(block);
        let ended = Ended::from(command.output().expect("the command"));
        assert_eq!(ended.hint(), hint, "{words:?}");
        let said = format!("{}: neither GPT copy is good", path.display());
        assert_eq!(ended.refused(10), said);
        let json = json::parse(&Ended::from(command.arg("--json").output().expect("the command")).out);
        assert_eq!(json.expect("JSON").text("hint"), hint);
    };
    let reads = |block: u64| format!("with --block {block} it reads: both copies are good and the same");
    for words in verbs {
        refused(&long, words, &[], &reads(4096));
        refused(&long, words, &["--block", "512"], &reads(4096));
        refused(&short, words, &["--block", "4096"], &reads(512));
    }
    for verb in ["show", "free", "check", "verify"] {
        refused(&long, &[verb], &["--block", "512"], &reads(4096));
        refused(&short, &[verb], &["--block", "4096"], &reads(512));
    }
    assert!([&long, &short].map(|path| fs::read(path).expect("an image")) == before);
}

/// Where neither reads, a header of the other block size is told.
#[test]
fn a_table_that_is_not_good_with_either() {
    let folder = Folder::new();
    let image = disk_of_4096(&folder, "disk.img", 44);
    spoil(&image, 4096 + 60);
    spoil(&image, 43 * 4096 + 60);
    let why = "is not good (both copies: the header's CRC is wrong)";
    for verb in ["show", "free", "check", "verify", "repair"] {
        let refused = run!["gpt", verb, image];
        assert_eq!(refused.hint(), format!("a GPT for blocks of 4096 bytes is there, and {why}"));
        refused.refused(10);
        let refused = at_4096(verb, &image, &[]);
        let look = format!("usigrambal gpt format {} --block 4096 --dry-run tells", image.display());
        assert_eq!(refused.hint(), format!("both copies: the header's CRC is wrong; {look} what is there"));
        refused.refused(10);
    }
    // A header of its own goes first.
    let file = fs::File::options().write(true).open(&image).expect("an image");
    file.write_all_at(b"EFI PART", 512).expect("bytes");
    let ended = run!["gpt", "show", image];
    assert!(ended.hint().starts_with("primary copy: its revision is 0"), "{}", ended.err);
    ended.refused(10);
}

/// Refusal 6 comes before all others, also where the file is not there.
#[test]
fn other_block_sizes() {
    let folder = Folder::new();
    let missing = folder.path("missing.img");
    let hint = "--block is 512 or 4096, the bytes of a block";
    for verb in
        [&["show"][..], &["free"], &["check"], &["verify"], &["format"], &["repair"], &["delete", "1"]]
    {
        for (block, words) in [("1024", "1024 bytes"), ("0", "0 bytes"), ("0x2000", "8192 bytes")] {
            let mut command = common::command();
            command.args(["gpt", verb[0]]).arg(&missing).args(&verb[1..]).args(["--block", block]);
            let ended = Ended::from(command.output().expect("the command"));
            assert_eq!(ended.hint(), hint);
            let said = format!("{}: the block size is neither 512 nor 4096: {words}", missing.display());
            assert_eq!(ended.refused(6), said);
        }
    }
    run!["gpt", "add", missing, "--size", "1", "--type", "none", "--block", "1"].refused(6);
    run!["gpt", "format", missing, "--guid", "none", "--block", "1"].refused(6);
    for block in ["4K", "", "x", "-1"] {
        let ended = run!["gpt", "show", missing, "--block", block];
        assert_eq!(ended.hint(), hint);
        ended.usage("is no number");
    }
    run!["gpt", "show", missing, "--block"].usage("--block needs 512|4096 behind it");
}

/// Each of several disks by its own, in text and as documents.
#[test]
fn several_disks() {
    let folder = Folder::new();
    let (long, short) = (disk_of_4096(&folder, "long.img", 44), disk(&folder, "short.img", 352));
    let list = json::parse(&run!["gpt", "verify", short, long, "--json"].done()).expect("JSON");
    let Json::List(documents) = list else { panic!("no list") };
    let blocks: Vec<u64> = documents.iter().map(|document| document.number("block_bytes")).collect();
    assert_eq!(blocks, [512, 4096]);
    let alone = [&short, &long].map(|path| run!["gpt", "verify", path].done());
    assert_eq!(run!["gpt", "verify", short, long].done(), alone.concat());
    let ended = run!["gpt", "verify", short, long, "--block", "4096"];
    assert_eq!(ended.status, Some(1));
    assert!(ended.err.starts_with("refused ") && ended.out.starts_with(&long.display().to_string()));
}
