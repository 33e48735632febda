//! Every call runs with a stack of 128 KiB.

mod common;

use common::strings::string;
use common::{Ended, Folder};
use std::process::Command;

/// In a shell with `ulimit -s 128`, in the folder.
fn small(folder: &Folder, line: &str) -> Ended {
    let script = format!("ulimit -s 128; {}", line.replace("usigrambal", common::program()));
    Command::new("bash").args(["-euc", &script]).current_dir(&folder.0).output().expect("bash").into()
}

#[test]
fn every_call_runs_with_a_stack_of_128_kib() {
    let folder = Folder::new();
    let mut text = testkit::layout::worst_text();
    text.resize(32_768, b' ');
    folder.file("worst.fmd", text);
    folder.file("deep.fmd", [b"I 9K {".to_vec(), b"A{".repeat(16_000)].concat());
    folder.file("board.fmd", "BOARD 64K { FMAP 4K RW_CAL(PRESERVE) 4K RW_LOG }");
    folder.file("moved.fmd", "BOARD 64K { FMAP 4K RW_CAL@8K 4K RW_LOG }");
    folder.sparse("disk.img", 64 << 20);
    let part = |number: usize| format!("name={number},size=512");
    let parts: Vec<String> = (1..=129).map(part).collect();
    let parts: Vec<&str> = parts.iter().map(String::as_str).collect();
    folder.file("layout.txt", string(&parts[..128]));
    folder.file("more.txt", string(&parts));
    for line in [
        "usigrambal --help",
        "usigrambal help gpt add",
        "usigrambal fmd list worst.fmd",
        "usigrambal fmd list --json worst.fmd",
        "usigrambal fmd write worst.fmd worst.bin --create",
        "usigrambal fmd write worst.fmd worst.bin",
        "usigrambal fmap show worst.bin",
        "usigrambal fmap show --json worst.bin",
        "usigrambal fmd write board.fmd old.bin --create",
        "usigrambal fmd write moved.fmd new.bin --create",
        "usigrambal fmap diff old.bin new.bin --svg new.svg",
        "usigrambal fmap carry old.bin new.bin",
        "usigrambal fmap extract old.bin RW_CAL -o cal.bin",
        "usigrambal gpt format disk.img",
        "usigrambal gpt build disk.img layout.txt --align 1 --replace",
        "usigrambal gpt format disk.img --replace",
        "for k in $(seq 128); do usigrambal gpt add disk.img --size 3 --align 1 --name p$k; done",
        "usigrambal gpt show disk.img disk.img",
        "usigrambal gpt show --json disk.img",
        "usigrambal gpt free disk.img",
        "usigrambal gpt delete disk.img p7",
        "usigrambal gpt resize disk.img 8 2",
        "usigrambal gpt rename disk.img 9 nine",
        "usigrambal gpt check disk.img --rule earlier",
        "usigrambal gpt verify disk.img",
        "printf x | dd of=disk.img bs=1 seek=512 conv=notrunc status=none; usigrambal gpt repair disk.img",
        "truncate -s 64M long.img; usigrambal gpt format long.img --block 4096",
        "for k in $(seq 128); do usigrambal gpt add long.img --size 3 --align 8 --name p$k --block 4096; done",
        "usigrambal gpt show long.img disk.img",
        "usigrambal gpt delete long.img p7 --block 4096",
        "usigrambal gpt resize long.img 8 2 --block 4096",
        "usigrambal gpt rename long.img 9 nine --block 4096",
        "printf x | dd of=long.img bs=1 seek=4096 conv=notrunc status=none; usigrambal gpt repair long.img --block 4096",
        "usigrambal gpt verify long.img",
        "usigrambal gpt format long.img --replace",
    ] {
        let ended = small(&folder, line);
        assert_eq!(ended.status, Some(0), "{line}\n{}", ended.err);
    }
    // What is refused is told with such a stack too; of worst.fmd the preserved sections lie in each other.
    assert_eq!(small(&folder, "usigrambal fmd list deep.fmd").status, Some(1));
    assert_eq!(
        small(&folder, "cp worst.bin other.bin; usigrambal fmap diff worst.bin other.bin --svg worst.svg")
            .status,
        Some(1)
    );
    assert_eq!(small(&folder, "usigrambal gpt add disk.img --size 1T").status, Some(1));
    assert_eq!(small(&folder, "usigrambal gpt add disk.img --size 1 --attributes 0xFFFF").status, Some(1));
    assert_eq!(small(&folder, "usigrambal gpt format disk.img").status, Some(4));
    assert_eq!(small(&folder, "usigrambal gpt build disk.img more.txt --align 1 --replace").status, Some(1));
    assert_eq!(small(&folder, "usigrambal gpt show disk.img --layout").status, Some(3));
}
