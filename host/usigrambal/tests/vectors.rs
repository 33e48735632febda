//! The disk calls and the layout strings of the C interface on cases that another implementation made.

use testkit::vectors::{Call, Calls, Lent};
use usigrambal::raw;

const CALLS: Calls = Calls {
    crc32: usigrambal::crc32,
    call,
    build: |Lent { head, tail }, [n, block, alignment], text| {
        raw::gpt_build(head, tail, n, block, alignment, text)
    },
};

testkit::vector_tests!(CALLS);

fn call(Lent { head, tail }: &mut Lent, call: &Call) -> (u32, String) {
    let (n, block) = (call.number("n"), call.number("block_size"));
    let (mut a, mut b) = (0, 0);
    match call.name {
        "format" => (raw::gpt_format(head, tail, n, block, &call.bytes("guid")), String::new()),
        "read" => {
            let number = raw::gpt_read(head, tail, n, block, &mut a);
            let mut offset = 0;
            assert_eq!(raw::gpt_table(head, tail, n, block, &mut b, &mut offset), number);
            (number, format!("{a} {} {offset}", if b == 0 { "head" } else { "tail" }))
        }
        "free" => (raw::gpt_free(head, tail, n, block, &mut a, &mut b), format!("{a} {b}")),
        "check" => {
            let number = raw::gpt_check(head, tail, n, block, call.rule(), &mut a);
            (number, a.to_string())
        }
        "add" => {
            let (kind, unique, name) = (&call.bytes("kind"), &call.bytes("unique"), &call.units("name"));
            let [size, alignment, attributes] =
                ["size", "alignment", "attributes"].map(|key| call.number(key));
            let rule = call.rule();
            let new = raw::NewPartition { kind, unique, size, alignment, attributes, rule, name };
            (raw::gpt_add(head, tail, n, block, &new, &mut a, &mut b), format!("{a} {b}"))
        }
        "delete" => (raw::gpt_delete(head, tail, n, block, call.number("slot")), String::new()),
        "resize" => {
            let (slot, size) = (call.number("slot"), call.number("size"));
            (raw::gpt_resize(head, tail, n, block, slot, size), String::new())
        }
        "rename" => {
            let (slot, name) = (call.number("slot"), call.units("name"));
            (raw::gpt_rename(head, tail, n, block, slot, &name), String::new())
        }
        "repair" => (raw::gpt_repair(head, tail, n, block, &mut a), a.to_string()),
        name => panic!("no call {name}"),
    }
}
