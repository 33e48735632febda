//! Every call of the layout language runs on a thread with a stack of 24 KiB, as include/usigrambal.h says, whatever the text.

use std::thread;
use testkit::layout::worst_text;
use usigrambal::raw::{self, RECORDS, RECORD_LEN};

const STACK: usize = 24 << 10;

/// Texts by what they ask of the stack, each with its number.
fn texts() -> Vec<(Vec<u8>, u32)> {
    let mut largest = worst_text();
    largest.resize(32_768, b' ');
    let endless = [b"I 9K {".to_vec(), b"A{".repeat(16_000)].concat();
    let mut texts = vec![
        (largest, 0),
        (worst_text(), 0),
        (b"I 16M{FMAP 1K A 1{B{C{D{E{F{G{H}}}}}}}}".to_vec(), 0),
        (b"I 16M{FMAP 1K A 1{B{C{D{E{F{G{H{I}}}}}}}}}".to_vec(), 55),
        (endless, 55),
        (vec![b'{'; 32_768], 51),
        (vec![b' '; 32_769], 50),
        (Vec::new(), 51),
    ];
    // One to nine open braces, with nothing behind the last.
    let open = b"I 16M{A{B{C{D{E{F{G{H{";
    texts.extend((6..=open.len()).step_by(2).map(|end| (open[..end].to_vec(), 51)));
    texts
}

/// What read, records and write answer. The buffers are on the heap, so that the stack holds the calls alone.
fn calls(text: &[u8]) -> [u32; 3] {
    let (mut name, mut records) = (vec![0; 32], vec![0; RECORDS * RECORD_LEN]);
    let (mut size, mut address, mut count) = (0, 0, 0);
    let read = raw::fmd_read(text, &mut name, &mut size, &mut address, &mut count);
    let listed = raw::fmd_records(text, &mut records, &mut count);
    [read, listed, raw::fmd_write(text, &mut vec![0; size as usize])]
}

fn on_small_stack<A: Send + 'static>(work: impl FnOnce() -> A + Send + 'static) -> A {
    thread::Builder::new().stack_size(STACK).spawn(work).expect("a thread").join().expect("no overflow")
}

#[test]
fn every_layout_call_needs_at_most_24_kib_of_stack() {
    for (text, number) in texts() {
        let begin = String::from_utf8_lossy(&text[..text.len().min(60)]).into_owned();
        assert_eq!(on_small_stack(move || calls(&text)), [number; 3], "{begin}");
    }
}
