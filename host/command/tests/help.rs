//! Help, and its examples, which run as they stand.

mod common;

use common::strings::string;
use common::{Ended, Folder};
use std::path::Path;
use std::process::Command;

const VERBS: [(&str, &[&str]); 3] = [
    ("fmd", &["list", "write"]),
    ("fmap", &["show", "diff", "carry", "extract"]),
    (
        "gpt",
        &[
            "show", "free", "format", "build", "add", "delete", "resize", "rename", "repair", "check",
            "verify",
        ],
    ),
];

fn examples(help: &str) -> Vec<String> {
    let lines = help.lines().skip_while(|line| *line != "Examples:").skip(1);
    lines.take_while(|line| line.starts_with("  ")).map(|line| line.trim().to_string()).collect()
}

#[test]
fn help_and_version() {
    let all = run!["--help"].done();
    assert_eq!(run!["-h"].done(), all);
    assert_eq!(run!["--version"].done(), format!("usigrambal {}\n", env!("CARGO_PKG_VERSION")));
    for (group, verbs) in VERBS {
        let of_group = run![group, "--help"].done();
        assert!(!examples(&of_group).is_empty());
        for verb in verbs {
            let call = format!("usigrambal {group} {verb} ");
            let help = run![group, verb, "--help"].done();
            assert!(all.contains(&call) && of_group.contains(&call), "{call}");
            assert!(help.starts_with(&format!("Usage: {call}")), "{help}");
            assert!(examples(&help).iter().any(|line| line.contains(&call)), "{help}");
        }
    }
    assert_eq!(run!["help", "gpt", "add"].done(), run!["gpt", "add", "--help"].done());
    assert_eq!(run!["help", "fmd"].done(), run!["fmd", "--help"].done());
    assert_eq!(run!["help"].done(), all);
    run!["help", "gpt", "wipe"].usage("gpt has no verb wipe");
    run![].usage("a group is missing");
    run!["gpt", "show"].usage("usigrambal gpt show --help tells more");
}

/// In a folder with the files that they name.
#[test]
fn examples_run_as_they_stand() {
    let program = Path::new(common::program()).parent().expect("a folder");
    let path = format!("{}:{}", program.display(), std::env::var("PATH").unwrap_or_default());
    let folder = Folder::new();
    let layout = string(&["name=boot,size=1MiB,type=system", "name=root,size=0"]);
    let shell = |line: &str| -> Ended {
        let mut bash = Command::new("bash");
        let call = bash.args(["-euc", line]).current_dir(&folder.0).env("PATH", &path);
        call.env("partitions", &layout).output().expect("bash").into()
    };
    folder.file("board.fmd", "BOARD 64K { FMAP 4K RW_CAL(PRESERVE) 4K RW_LOG }");
    let fresh = "rm -f board.bin disk.img; usigrambal fmd write board.fmd board.bin --create; truncate -s 64M disk.img; \
                 usigrambal gpt format disk.img; usigrambal gpt add disk.img --size 21M --name first; \
                 usigrambal gpt add disk.img --size 1M --name pages; usigrambal gpt resize disk.img 1 1M; \
                 cp board.bin running.bin; cp board.bin update.bin";
    let mut run_lines = 0;
    for (group, verbs) in VERBS {
        for verb in verbs {
            for line in examples(&run![group, verb, "--help"].done()) {
                folder.file("layout.txt", format!("{layout}\n"));
                shell(fresh).done();
                let line = line.replace("/dev/sdb", "disk.img");
                let made_first = line.contains("--create") || line.starts_with("truncate");
                if made_first {
                    shell("rm -f board.bin disk.img").done();
                }
                let ended = shell(&line);
                assert_eq!(ended.status, Some(0), "{line}\n{}", ended.err);
                run_lines += 1;
            }
        }
    }
    assert!(run_lines >= 14, "{run_lines}");
}

/// What bash offers behind these words.
fn offered(folder: &Folder, words: &str) -> String {
    let script = folder.file("usigrambal.bash", run!["--page", "usigrambal.bash"].done());
    let line = format!(
        "source {}; COMP_WORDS=({words} ''); COMP_CWORD=$((${{#COMP_WORDS[@]}} - 1)); _usigrambal; echo \"${{COMPREPLY[*]}}\"",
        script.display()
    );
    Ended::from(Command::new("bash").args(["-uc", &line]).output().expect("bash")).out
}

/// Of every verb on disks; both values are offered behind it.
#[test]
fn the_block_size_is_an_option_of_every_verb_on_disks() {
    let (_, verbs) = VERBS[2];
    for verb in verbs {
        let help = run!["gpt", verb, "--help"].done();
        assert!(help.contains("[--block 512|4096]") && help.contains("\n  --block 512|4096 "), "{help}");
    }
    let folder = Folder::new();
    for verb in verbs {
        assert_eq!(offered(&folder, &format!("usigrambal gpt {verb} disk.img --block")), "512 4096\n");
    }
    let page = run!["--page", "usigrambal-gpt.1"].done();
    assert_eq!(page.matches("\\fB\\-\\-block\\fP \\fI512|4096\\fP").count(), verbs.len());
}

/// Of `gpt add` and `gpt build`; what it is where nothing is said stands beside it, in bytes too.
#[test]
fn the_alignment_is_an_option_of_add_and_build() {
    for (verb, end) in [
        ("add", "2048 if not given (1 MiB; 8 MiB of 4096-byte ones)"),
        ("build", "begin at a multiple of so many blocks; 2048 if not given"),
    ] {
        let help = run!["gpt", verb, "--help"].done();
        assert!(help.contains("[--align 1|8|2048]"), "{help}");
        let line = help.lines().find(|line| line.starts_with("  --align 1|8|2048 ")).expect("a line");
        assert!(line.ends_with(end), "{line}");
        assert_eq!(offered(&Folder::new(), &format!("usigrambal gpt {verb} disk.img --align")), "1 8 2048\n");
    }
    let page = run!["--page", "usigrambal-gpt.1"].done();
    assert_eq!(page.matches("\\fB\\-\\-align\\fP \\fI1|8|2048\\fP").count(), 2);
}

/// Of `gpt add` and `gpt check`; both values are offered behind it, and the names of bits behind --attributes.
#[test]
fn the_rule_is_an_option_of_add_and_check() {
    let folder = Folder::new();
    let (_, verbs) = VERBS[2];
    for verb in verbs {
        let help = run!["gpt", verb, "--help"].done();
        let has = ["add", "check"].contains(verb);
        assert_eq!(help.contains("[--rule present|earlier]"), has, "{help}");
        if has {
            let line =
                help.lines().find(|line| line.starts_with("  --rule present|earlier ")).expect("a line");
            assert!(line.ends_with("present 3 to 47, earlier 1 to 47; present if not given"), "{line}");
            let words = format!("usigrambal gpt {verb} disk.img --rule");
            assert_eq!(offered(&folder, &words), "present earlier\n");
        }
    }
    let bits = offered(&folder, "usigrambal gpt add disk.img --attributes");
    assert_eq!(bits, "required no-block-io legacy-boot\n");
    let page = run!["--page", "usigrambal-gpt.1"].done();
    assert_eq!(page.matches("\\fB\\-\\-rule\\fP \\fIpresent|earlier\\fP").count(), 2);
}
