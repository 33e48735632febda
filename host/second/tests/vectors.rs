//! The disk calls and the layout strings of the second implementation on cases that another implementation made.

use second::{NewPartition, RULES};
use testkit::vectors::{Call, Calls, Lent};

const CALLS: Calls = Calls {
    crc32: |bytes| second::crc32(&RULES, bytes),
    call,
    build: |Lent { head, tail }, [n, block, alignment], text| {
        second::gpt_build(&RULES, head, tail, n, block, alignment, text)
    },
};

testkit::vector_tests!(CALLS);

fn call(Lent { head, tail }: &mut Lent, call: &Call) -> (u32, String) {
    let (n, block) = (call.number("n"), call.number("block_size"));
    let (mut a, mut b) = (0, 0);
    match call.name {
        "format" => (second::gpt_format(&RULES, head, tail, n, block, &call.bytes("guid")), String::new()),
        "read" => {
            let number = second::gpt_read(&RULES, head, tail, n, block, &mut a);
            let mut offset = 0;
            assert_eq!(second::gpt_table(&RULES, head, tail, n, block, &mut b, &mut offset), number);
            (number, format!("{a} {} {offset}", if b == 0 { "head" } else { "tail" }))
        }
        "free" => (second::gpt_free(&RULES, head, tail, n, block, &mut a, &mut b), format!("{a} {b}")),
        "check" => {
            let number = second::gpt_check(&RULES, head, tail, n, block, call.rule(), &mut a);
            (number, a.to_string())
        }
        "add" => {
            let (kind, unique, name) = (&call.bytes("kind"), &call.bytes("unique"), &call.units("name"));
            let [size, alignment, attributes] =
                ["size", "alignment", "attributes"].map(|key| call.number(key));
            let rule = call.rule();
            let new = NewPartition { kind, unique, size, alignment, attributes, rule, name };
            (second::gpt_add(&RULES, head, tail, n, block, &new, &mut a, &mut b), format!("{a} {b}"))
        }
        "delete" => (second::gpt_delete(&RULES, head, tail, n, block, call.number("slot")), String::new()),
        "resize" => {
            let (slot, size) = (call.number("slot"), call.number("size"));
            (second::gpt_resize(&RULES, head, tail, n, block, slot, size), String::new())
        }
        "rename" => {
            let (slot, name) = (call.number("slot"), call.units("name"));
            (second::gpt_rename(&RULES, head, tail, n, block, slot, &name), String::new())
        }
        "repair" => (second::gpt_repair(&RULES, head, tail, n, block, &mut a), a.to_string()),
        name => panic!("no call {name}"),
    }
}
