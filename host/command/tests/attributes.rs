//! Attribute bits of `gpt add`: as they are given and shown, and refused by a rule.

mod common;

use common::image::{both, Image};
use common::{disk, refused, Ended, Folder};
use testkit::json::Json;

const SET: &str = "an attribute bit is set that the rule wants zero";
const LIST: &str =
    "--attributes is a list, parted by commas, of required, no-block-io, legacy-boot (bits 0 to 2) and numbers from 48 to 63, \
     or else one number for all 64 bits (decimal, or 0x and hex digits)";

impl Image {
    fn add(&self, more: &[&str]) -> Ended {
        self.call("add", &[&["--size", "1", "--align", "1"], more].concat())
    }

    /// Refused with 28 for these bits, and with this hint; a dry run too, and no byte changes.
    #[track_caller]
    fn offends(&self, more: &[&str], bits: &str, hint: &str) {
        let before = self.bytes();
        let said = format!("{SET}: {bits}");
        let words = [&["--size", "1", "--align", "1"], more].concat();
        refused(&self.words("add", &words), 28, &said, hint);
        refused(&self.words("add", &[&words[..], &["--dry-run"]].concat()), 28, &said, hint);
        assert!(self.bytes() == before);
    }
}

fn texts(list: &[Json]) -> Vec<String> {
    let text = |text: &Json| match text {
        Json::Text(text) => text.clone(),
        other => panic!("no text: {other:?}"),
    };
    list.iter().map(text).collect()
}

/// What is given, the 64 bits, and the bits by name, which `gpt show` tells alike.
#[test]
fn attributes_as_they_are_given_and_shown() {
    let folder = Folder::new();
    for image in both(&folder) {
        let given = [
            ("required", "0x1", &["required"][..]),
            ("4", "0x4", &["legacy-boot"]),
            ("no-block-io,legacy-boot", "0x6", &["no-block-io", "legacy-boot"]),
            ("60,required,48", "0x1001000000000001", &["required", "48", "60"]),
            ("63", "0x8000000000000000", &["63"]),
            ("48", "0x1000000000000", &["48"]),
            ("0xFFFF000000000007", "0xffff000000000007", &[]),
            ("0", "0x0", &[]),
        ];
        for (number, (text, bits, names)) in (1..).zip(given) {
            let added = image.add(&["--attributes", text, "--json"]).json();
            assert_eq!((added.number("number"), added.text("attributes")), (number, bits), "{text}");
            assert_eq!(added.text("rule"), "present");
            if !names.is_empty() {
                assert_eq!(texts(added.list("attribute_names")), names, "{text}");
            }
        }
        let shown = image.call("show", &["--json"]).json();
        let listed: Vec<&str> = shown.list("partitions").iter().map(|one| one.text("attributes")).collect();
        assert_eq!(listed, given.map(|(_, bits, _)| bits));
        assert_eq!(texts(shown.list("partitions")[6].list("attribute_names")).len(), 19);
        assert_eq!(texts(shown.list("partitions")[7].list("attribute_names")), [""; 0]);
        let text = image.call("show", &[]).done();
        let rows: Vec<&str> = text.lines().skip_while(|line| !line.starts_with("Number")).skip(1).collect();
        for (row, told) in rows.iter().zip(["required", "legacy-boot", "no-block-io,legacy-boot"]) {
            assert!(row.ends_with(&format!("  {told}")), "{row}");
        }
        assert!(rows[3].ends_with("  required,48,60") && rows[7].ends_with("  -"), "{text}");
        // What is shown can be given again.
        let copied = rows[6].rsplit("  ").next().expect("attributes");
        let again = image.add(&["--attributes", copied, "--dry-run", "--json"]).json();
        assert_eq!(again.text("attributes"), "0xffff000000000007");
    }
}

/// The answer of an add names the bits, so that a number that was meant otherwise is seen.
#[test]
fn an_add_tells_the_bits() {
    let folder = Folder::new();
    for image in both(&folder) {
        let said = image.add(&["--attributes", "2", "--name", "a"]).done();
        assert!(said.ends_with("linux, \"a\"; attributes no-block-io\n"), "{said}");
        let said = image.add(&["--attributes", "60,required", "--dry-run"]).done();
        assert!(said.ends_with("linux, \"\"; attributes required,60\n"), "{said}");
        assert!(image.add(&["--attributes", "0"]).done().ends_with("linux, \"\"\n"));
    }
}

#[test]
fn words_that_are_no_attributes() {
    let folder = Folder::new();
    let [image, _] = both(&folder);
    for (text, word) in [
        ("x", "x"),
        ("", ""),
        ("required,2", "2"),
        ("required,47", "47"),
        ("64,48", "64"),
        ("0x4,required", "0x4"),
        ("required,", ""),
        ("Required", "Required"),
        ("-1", "-1"),
        ("a\u{1b}[2J", "a\\u{1b}[2J"),
    ] {
        let ended = image.add(&["--attributes", text]);
        assert_eq!(ended.hint(), LIST, "{text}");
        ended.usage(&format!("\"{word}\" is no attribute"));
    }
    image.add(&["--attributes", "48,required,48"]).usage("\"48\" stands twice in --attributes");
    image.add(&["--attributes", "4K"]).usage("\"4K\" is no number");
    image.add(&["--attributes", "18446744073709551616"]).usage("is too large");
    image.add(&["--attributes"]).usage("512 is one operand too many");
    for verb in ["add", "check"] {
        let size: &[&str] = if verb == "add" { &["--size", "1"] } else { &[] };
        for rule in ["", "0", "Present", "none", "earlier\n"] {
            let ended = image.call(verb, &[size, &["--rule", rule]].concat());
            assert_eq!(ended.hint(), "--rule is present or earlier");
            ended.usage("is no rule");
        }
    }
    image.call("delete", &["1", "--rule", "present"]).usage("there is no option --rule");
}

/// The bits that offend, under which rule, and what helps: what is advised does.
#[test]
fn an_add_that_offends() {
    let folder = Folder::new();
    for image in both(&folder) {
        let earlier = |text| ["--rule", "earlier", "--attributes", text];
        let present = |text| ["--rule", "present", "--attributes", text];
        let both = "bits 1 (no-block-io) and 2 (legacy-boot) under the earlier rule";
        let none = "without --attributes no bit is set";
        image.offends(
            &earlier("legacy-boot"),
            "bit 2 (legacy-boot) under the earlier rule",
            &format!("--rule present takes it; {none}"),
        );
        image.offends(
            &earlier("7"),
            both,
            "--rule present takes them; --attributes required leaves them out",
        );
        image.offends(
            &earlier("no-block-io,legacy-boot,60"),
            both,
            "--rule present takes them; --attributes 60 leaves them out",
        );
        let under_both = |bits: &str| format!("{bits} must be zero under both rules");
        let bit_3 = "bit 3 under the present rule";
        image.offends(&["--attributes", "8"], bit_3, &format!("{}; {none}", under_both("bit 3")));
        image.offends(
            &present("0x800000000000000d"),
            bit_3,
            &format!("{}; --attributes required,legacy-boot,63 leaves it out", under_both("bit 3")),
        );
        image.offends(
            &earlier("0x2F"),
            "bits 1 (no-block-io), 2 (legacy-boot), 3 and 5 under the earlier rule",
            &format!("{}; --attributes required leaves them out", under_both("bits 3 and 5")),
        );
        image.offends(
            &present("0xFFFFFFFFFFFFFFF8"),
            "bits 3 to 47 under the present rule",
            &format!(
                "{}; --attributes {} leaves them out",
                under_both("bits 3 to 47"),
                (48..64).map(|bit| bit.to_string()).collect::<Vec<_>>().join(",")
            ),
        );
        image.add(&present("7")).done();
        image.add(&earlier("required,60")).done();
    }
}

/// After a name that is taken, before no slot is unused and no room.
#[test]
fn refusals_around_it() {
    let folder = Folder::new();
    let image = Image { path: disk(&folder, "disk.img", 1000), block: 512 };
    image.add(&["--name", "a"]).done();
    image.add(&["--name", "a", "--attributes", "8"]).refused(26);
    image.call("add", &["--size", "1T", "--attributes", "8"]).refused(28);
    (2..=128).for_each(|_| drop(image.add(&[]).done()));
    image.add(&["--attributes", "legacy-boot", "--rule", "earlier"]).refused(28);
    image.add(&["--attributes", "legacy-boot"]).refused(24);
}

/// The rule goes along where the hint of an add tries another alignment.
#[test]
fn another_alignment_is_tried_by_the_same_rule() {
    let folder = Folder::new();
    let [image, _] = both(&folder);
    let path = image.text();
    let words = |rule, bits| ["gpt", "add", path, "--size", "1", "--rule", rule, "--attributes", bits];
    let said = "no room: no multiple of 2048 has 1 free block from it on";
    let hint = "--align 8 would place it at block 40";
    refused(&words("present", "legacy-boot"), 25, said, hint);
    refused(&words("earlier", "required"), 25, said, hint);
}
