//! `usi_gpt_build` runs on a thread with a stack of 64 KiB, as include/usigrambal.h says, whatever the layout string.

use std::thread;
use testkit::disk::{Shape, SHAPES};
use testkit::strings::{lengthened, many, numbered_guid, TEXT_MAX};
use usigrambal::{raw, ALIGNMENTS};

const STACK: usize = 64 << 10;

#[test]
fn the_header_says_so() {
    let header = include_str!("../../../include/usigrambal.h");
    let said = format!("usi_gpt_build runs on a thread with {} KiB of stack", STACK >> 10);
    assert!(header.contains(&said));
}

/// Strings by what they ask of the stack, each with its number, on a disk with blocks of this size.
fn strings(block: u64) -> Vec<(Vec<u8>, u32)> {
    let full = many(128, block);
    let damaged = |from: &str, to: &str| {
        let at = full.rfind(from).expect("it stands there");
        [&full[..at], to, &full[at + from.len()..]].concat()
    };
    let last = format!("name=7F,size={block},uuid={}", numbered_guid(128));
    let texts = [
        (lengthened(&full, TEXT_MAX), 0),
        (lengthened(&many(1, block), TEXT_MAX), 0),
        (damaged(&format!("size={block}"), "size=0"), 0),
        (format!("{full};"), 0),
        (many(129, block), 24),
        (lengthened(&full, TEXT_MAX + 1), 70),
        (format!("{full};;"), 70),
        (damaged(&last, &last[1..]), 70),
        (damaged("uuid=", "uuid=,uuid="), 70),
        (damaged("size=", "size=99999999999999999999"), 70),
        (damaged("size=", "start=0,size="), 72),
        (damaged(&format!("size={block}"), &format!("size={}", block + 1)), 71),
        (damaged(&numbered_guid(128), &numbered_guid(1)), 22),
        (damaged("name=7F", "name=0"), 26),
        (damaged(&format!("size={block}"), "size=18446744073709547520"), 25),
        (String::new(), 70),
    ];
    let fillers = [b';', b',', b'=', b'0', b'n', 0xFF].map(|byte| (vec![byte; TEXT_MAX], 70));
    texts.into_iter().map(|(text, number)| (text.into_bytes(), number)).chain(fillers).collect()
}

/// Head and tail are on the heap, so that the stack holds the call alone.
fn build(shape: Shape, alignment: u64, text: &[u8]) -> u32 {
    let mut disk = shape.filled(1 << 20, 0xA5);
    raw::gpt_build(&mut disk.head, &mut disk.tail, disk.n, disk.block, alignment, text)
}

#[test]
fn building_needs_at_most_64_kib_of_stack() {
    for shape in SHAPES {
        for alignment in ALIGNMENTS {
            for (text, number) in strings(shape.block) {
                let begin = String::from_utf8_lossy(&text[..text.len().min(120)]).into_owned();
                let work = move || build(shape, alignment, &text);
                let thread = thread::Builder::new().stack_size(STACK).spawn(work).expect("a thread");
                assert_eq!(thread.join().expect("no overflow"), number, "{alignment}, {begin}");
            }
        }
    }
}
