//! docs/JSON.md has every field of every verb's document, and no other.

mod common;

use common::strings::string;
use common::{spoil, Folder};
use std::collections::{BTreeMap, BTreeSet};
use std::ffi::OsStr;
use std::fs::{self, File};
use std::os::unix::fs::FileExt;
use testkit::json::{self, Json};

/// A field's kinds of values, and whether some documents lack it.
#[derive(Clone, Debug, Default, PartialEq)]
struct Field {
    kinds: BTreeSet<String>,
    sometimes: bool,
}

type Fields = BTreeMap<String, Field>;

/// The fields that the objects of a list always have, by the table that has them.
fn items_of(table: &Fields, list: &str) -> Fields {
    let under = format!("{list}[].");
    let always = table.iter().filter(|(name, field)| name.starts_with(&under) && !field.sometimes);
    always.map(|(name, field)| (name.clone(), field.clone())).collect()
}

/// The tables of docs/JSON.md by their headings. A row of `a[]` alone names the table that has its fields.
fn documented() -> BTreeMap<String, Fields> {
    let path = testkit::host().join("../docs/JSON.md");
    let text = fs::read_to_string(path).expect("docs/JSON.md");
    let mut tables: BTreeMap<String, Fields> = BTreeMap::new();
    let mut heading = String::new();
    for line in text.lines() {
        if let Some(name) = line.strip_prefix("## ") {
            heading = name.to_string();
        }
        let Some(row) = line.strip_prefix("| `") else { continue };
        let cells: Vec<&str> = row.split(" | ").collect();
        let name = cells[0].trim_end_matches('`').to_string();
        if let Some(list) = name.strip_suffix("[]") {
            let (_, named) = cells[2].split_once("as in `").expect("a table");
            let items = items_of(&tables[named.split('`').next().expect("a heading")], list);
            tables.entry(heading.clone()).or_default().extend(items);
            continue;
        }
        let (kinds, sometimes) =
            cells[1].strip_suffix(", sometimes").map_or((cells[1], false), |kinds| (kinds, true));
        let kinds = kinds.split(" or ").map(str::to_string).collect();
        let before = tables.entry(heading.clone()).or_default().insert(name, Field { kinds, sometimes });
        assert!(before.is_none(), "{heading}: {row} stands twice");
    }
    tables
}

fn kind(value: &Json) -> String {
    let plain = match value {
        Json::Null => "null",
        Json::Bool(_) => "bool",
        Json::Number(_) => "number",
        Json::Text(_) => "text",
        Json::List(_) => "list",
        Json::Object(_) => "object",
    };
    plain.to_string()
}

/// The fields of documents of one shape, under that name.
fn gather(documents: &[&Json], under: &str, fields: &mut Fields) {
    let mut values: BTreeMap<&str, Vec<&Json>> = BTreeMap::new();
    for document in documents {
        let Json::Object(own) = document else { panic!("no object: {document:?}") };
        own.iter().for_each(|(name, value)| values.entry(name).or_default().push(value));
    }
    for (name, values) in values {
        let path = format!("{under}{name}");
        let items: Vec<&Json> = values
            .iter()
            .filter_map(|value| if let Json::List(items) = value { Some(items) } else { None })
            .flatten()
            .collect();
        let mut kinds: BTreeSet<String> = values.iter().map(|value| kind(value)).collect();
        match items.first() {
            Some(Json::Object(_)) => gather(&items, &format!("{path}[]."), fields),
            Some(item) => drop((kinds.remove("list"), kinds.insert(format!("list of {}", kind(item))))),
            None => {}
        }
        let objects: Vec<&Json> =
            values.iter().copied().filter(|value| matches!(value, Json::Object(_))).collect();
        if !objects.is_empty() {
            gather(&objects, &format!("{path}."), fields);
        }
        fields.insert(path, Field { kinds, sometimes: values.len() < documents.len() });
    }
}

/// The documents of calls, each under the heading of its verb, or `failures`.
#[derive(Default)]
struct Printed(BTreeMap<String, Vec<Json>>);

impl Printed {
    fn call(&mut self, folder: &Folder, line: &str) {
        let words: Vec<&str> = line.split(' ').filter(|word| !word.is_empty()).collect();
        let mut command = common::command();
        let output = command.args(&words).arg("--json").current_dir(&folder.0).output().expect("the command");
        let document =
            json::parse(&String::from_utf8_lossy(&output.stdout)).unwrap_or_else(|_| panic!("{line}"));
        let Json::Object(fields) = &document else { panic!("{line}: {document:?}") };
        let failed = fields.iter().any(|(name, _)| name == "refused" || name == "error");
        // A check that found something answers with status 1.
        assert!(
            matches!((failed, output.status.code()), (true, Some(1..=4)) | (false, Some(0 | 1))),
            "{line}"
        );
        let heading = if failed { "failures".to_string() } else { words[..2].join(" ") };
        self.0.entry(heading).or_default().push(document);
    }
}

/// A name with a unit behind a zero, in both copies, by the library itself.
fn odd_name(folder: &Folder, name: &str) {
    let path = folder.path(name);
    let file = File::options().read(true).write(true).open(&path).expect("a disk");
    let len = file.metadata().expect("a length").len();
    let block = usigrambal::BlockSize::Bytes512;
    let (mut head, mut tail) = (vec![0; block.head_len()], vec![0; block.tail_len()]);
    let tail_at = len - tail.len() as u64;
    file.read_exact_at(&mut head, 0).and_then(|()| file.read_exact_at(&mut tail, tail_at)).expect("a disk");
    let mut disk = usigrambal::Disk { head: &mut head, tail: &mut tail, n: len / 512, block };
    let mut units = [0; 36];
    units[0] = 0xD800;
    disk.rename(1, &usigrambal::Name(units)).expect("a name");
    file.write_all_at(&head, 0).and_then(|()| file.write_all_at(&tail, tail_at)).expect("a disk");
}

fn disks(printed: &mut Printed, folder: &Folder) {
    let mut call = |line: &str| printed.call(folder, line);
    folder.sparse("disk.img", 100 * 512);
    call("gpt verify disk.img");
    call("gpt format disk.img");
    call("gpt format disk.img");
    call("gpt add disk.img --size 1 --align 1 --name a");
    call("gpt add disk.img --size 1 --align 1 --type FE3A2A5D-4F32-41A7-B725-ACCC3285A309 --attributes required");
    call("gpt add disk.img --size 1T");
    call("gpt add disk.img --size 1 --align 3");
    call("gpt add disk.img --size 1 --attributes legacy-boot --rule earlier");
    call("gpt add disk.img --size x");
    call("gpt check disk.img --rule earlier");
    call("gpt check disk.img --rule x");
    call("gpt show missing.img");
    call("gpt verify missing.img");
    call("gpt verify");
    call("gpt show disk.img");
    call("gpt free disk.img");
    call("gpt rename disk.img 1 b");
    call("gpt rename disk.img 2 c");
    call("gpt resize disk.img 2 2");
    odd_name(folder, "disk.img");
    call("gpt show disk.img");
    call("gpt resize disk.img 1 1");
    call("gpt delete disk.img 1");
    call("gpt delete disk.img 2");
    call("gpt verify disk.img");
    spoil(&folder.path("disk.img"), 450);
    call("gpt show disk.img");
    spoil(&folder.path("disk.img"), 450);
    spoil(&folder.path("disk.img"), 512);
    call("gpt verify disk.img");
    call("gpt repair disk.img");
    spoil(&folder.path("disk.img"), 0);
    call("gpt format disk.img --replace");
    call("gpt show disk.img --block 1024");
    folder.sparse("long.img", 44 * 4096);
    call("gpt format long.img --block 4096");
    call("gpt show long.img");
    call("gpt add long.img --size 1");
    folder.sparse("stale.img", 100 * 512);
    call("gpt format stale.img");
    call("gpt add stale.img --size 1 --align 8");
    common::clear_types(&folder.path("stale.img"), 512, [1]);
    call("gpt show stale.img");
    call("gpt verify stale.img");
    folder.sparse("shared.img", 100 * 512);
    call("gpt format shared.img");
    (0..4).for_each(|_| call("gpt add shared.img --size 1 --align 1 --attributes legacy-boot"));
    common::set_name(&folder.path("shared.img"), 512, [1, 2], "scratch");
    common::set_name(&folder.path("shared.img"), 512, [3, 4], "scratch\0z");
    call("gpt show shared.img");
    call("gpt verify shared.img");
    call("gpt check shared.img --rule earlier");
    call("gpt add shared.img --size 1 --align 1 --name scratch");
    call("gpt show shared.img --layout");
    built(printed, folder);
}

fn built(printed: &mut Printed, folder: &Folder) {
    let mut call = |line: &str| printed.call(folder, line);
    folder.sparse("built.img", 1 << 20);
    let kind = "type=FE3A2A5D-4F32-41A7-B725-ACCC3285A309";
    let text = string(&["name=a,size=512,type=system", &format!("name=${{b}},size=512,bootable,{kind}")]);
    folder.file("layout.txt", &text);
    call(&format!("gpt build built.img --text {text} --align 1"));
    call("gpt build built.img layout.txt --align 8 --replace");
    call("gpt show built.img --layout");
    call("gpt build built.img layout.txt");
    call(&format!("gpt build built.img --text {} --replace", text.replace("512", "1")));
    call("gpt build built.img --text x");
    folder.file("layout.txt", text.replace("512", "0x200"));
    call("gpt build built.img layout.txt");
}

fn images(printed: &mut Printed, folder: &Folder) {
    let mut call = |line: &str| printed.call(folder, line);
    folder.file("board.fmd", "BOARD 64K { BOOT 8K { FMAP 4K } RW_CAL(PRESERVE) 4K RW_LOG 4K }");
    folder.file("wrong.fmd", "BOARD 64K { FMAP 4K");
    folder.file("empty.bin", [0; 512]);
    call("fmd list board.fmd");
    call("fmd list wrong.fmd");
    call("fmd write board.fmd board.bin --create");
    call("fmd write board.fmd board.bin --create");
    call("fmd write board.fmd other.bin --create");
    call("fmap show board.bin");
    call("fmap show empty.bin");
    call("fmap carry board.bin other.bin");
    call("fmap diff board.bin other.bin");
    call("fmap carry board.bin empty.bin");
    call("fmap diff empty.bin board.bin");
    folder.file(
        "behind.fmd",
        "BOARD 64K { FMAP@16K 4K RW_CAL(PRESERVE)@32K 4K { IN 1K } RW_LOG(PRESERVE) 4K NEW(PRESERVE) }",
    );
    call("fmd write behind.fmd other.bin");
    call("fmd write behind.fmd other.bin --retire");
    call("fmap carry board.bin other.bin");
    call("fmap diff board.bin other.bin --svg update.svg");
    call("fmap diff other.bin board.bin");
}

/// Warnings are texts wherever there are any.
fn settled(mut fields: Fields) -> Fields {
    if let Some(warnings) = fields.get_mut("warnings") {
        warnings.kinds = ["list of text".to_string()].into();
    }
    fields
}

#[test]
fn every_field_is_documented_and_every_documented_field_is_printed() {
    let folder = Folder::new();
    let mut printed = Printed::default();
    disks(&mut printed, &folder);
    images(&mut printed, &folder);
    let documented = documented();
    let headings: Vec<&String> = documented.keys().collect();
    assert_eq!(printed.0.keys().collect::<Vec<_>>(), headings);
    for (heading, documents) in &printed.0 {
        let mut fields = Fields::new();
        gather(&documents.iter().collect::<Vec<_>>(), "", &mut fields);
        let fields = settled(fields);
        for (name, field) in &fields {
            assert_eq!(documented[heading].get(name), Some(field), "{heading}: {name}");
        }
        for name in documented[heading].keys() {
            assert!(fields.contains_key(name), "{heading}: {name} is not printed");
        }
        assert!(documents.iter().all(|document| matches!(document.at("warnings"), Json::List(_))));
    }
}

/// Every verb that has --json has a table.
#[test]
fn every_verb_has_its_table() {
    let documented = documented();
    let help = run!["--help"].done();
    let calls = help.lines().filter_map(|line| line.trim().strip_prefix("usigrambal "));
    let verbs: BTreeSet<String> = calls
        .map(|call| call.split(' ').take(2).collect::<Vec<_>>())
        .filter(|words| words.len() == 2 && ["fmd", "fmap", "gpt"].contains(&words[0]))
        .filter(|words| {
            common::run(&[words[0], words[1], "--help"].map(OsStr::new)).done().contains("--json")
        })
        .map(|words| words.join(" "))
        .collect();
    let tables: BTreeSet<String> = documented.into_keys().filter(|name| name != "failures").collect();
    assert_eq!(tables, verbs);
}
