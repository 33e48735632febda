//! Every disk call but `usi_gpt_build` (build_stack.rs) and every flash map call runs on a thread with a stack of 24 KiB, as include/usigrambal.h says.

use std::thread;
use testkit::disk::{Disk, Shape, SHAPES};
use testkit::flash::{map_len, Area, Map, PRESERVE};
use usigrambal::raw::{self, NewPartition};
use usigrambal::ALIGNMENTS;

const STACK: usize = 24 << 10;
const N: u64 = 1 << 20;

#[test]
fn the_header_says_so() {
    let header = include_str!("../../../include/usigrambal.h");
    assert!(header.contains(&format!("every other call on one with {} KiB.\n", STACK >> 10)));
}

fn on_small_stack(work: impl FnOnce() + Send + 'static) {
    thread::Builder::new().stack_size(STACK).spawn(work).expect("a thread").join().expect("no overflow");
}

#[test]
fn every_disk_call_needs_at_most_24_kib_of_stack() {
    for shape in SHAPES {
        on_small_stack(move || disk_calls(shape));
    }
}

fn disk_calls(shape: Shape) {
    // Head and tail are on the heap, so that the stack holds the calls alone.
    let Disk { mut head, mut tail, n, block } = shape.filled(N, 0);
    let (mut a, mut b) = (0, 0);
    assert_eq!(raw::gpt_format(&mut head, &mut tail, n, block, &[7; 16]), 0);
    for unique in 1..=128_u8 {
        let alignment = ALIGNMENTS[usize::from(unique) % ALIGNMENTS.len()];
        let (kind, unique, name) = (&[9; 16], &[unique; 16], &[u16::from(unique); 36]);
        let new = NewPartition {
            kind,
            unique,
            size: 3,
            alignment,
            attributes: 0,
            rule: u64::from(unique[0]),
            name,
        };
        assert_eq!(raw::gpt_add(&mut head, &mut tail, n, block, &new, &mut a, &mut b), 0);
    }
    assert_eq!(raw::gpt_resize(&mut head, &mut tail, n, block, 64, 2), 0);
    assert_eq!(raw::gpt_rename(&mut head, &mut tail, n, block, 64, &[200; 36]), 0);
    assert_eq!(raw::gpt_delete(&mut head, &mut tail, n, block, 64), 0);
    assert_eq!(raw::gpt_free(&head, &tail, n, block, &mut a, &mut b), 0);
    assert_eq!(raw::gpt_check(&head, &tail, n, block, 1, &mut a), 0);
    assert_eq!(a, 0);
    assert_eq!(raw::gpt_table(&head, &tail, n, block, &mut a, &mut b), 0);
    assert_eq!(raw::gpt_read(&head, &tail, n, block, &mut a), 0);
    assert_eq!(a, 1);
    // The primary's CRC is broken: repair writes the head from the tail.
    head[shape.header_in_head() + 16] ^= 1;
    assert_eq!(raw::gpt_repair(&mut head, &mut tail, n, block, &mut a), 0);
    assert_eq!(a, 4);
    // Tables that differ are judged one by one.
    tail[shape.header_in_tail() + 16] ^= 1;
    assert_eq!(raw::gpt_repair(&mut head, &mut tail, n, block, &mut a), 0);
    assert_eq!(a, 3);
}

/// An image with a map of 128 areas at its start, all of them preserved but FMAP.
fn image() -> Vec<u8> {
    let start = map_len(128) as u32;
    let named = |name: String, offset, size, flags| Area { offset, size, name: name.into_bytes(), flags };
    let mut areas = vec![named("FMAP".into(), 0, start, 0)];
    areas.extend((0..127).map(|k| named(format!("AREA_{k}"), start + 9 * k, 9, PRESERVE)));
    let size = start + 9 * 127;
    let map = Map { major: 1, minor: 1, base: 0, size, name: b"CHIP".to_vec(), areas, position: 0 };
    let mut image = vec![0; size as usize];
    map.write(&mut image);
    image
}

#[test]
fn every_flash_map_call_needs_at_most_24_kib_of_stack() {
    on_small_stack(|| {
        let (old, mut new) = (image(), image());
        let (mut number, mut area) = (1, [0; 42]);
        assert_eq!(raw::fmap_find(&old, &mut number), 0);
        assert_eq!(number, 0);
        assert_eq!(raw::fmap_fault(&old, 0, &mut number), 0);
        assert_eq!(number, 0);
        assert_eq!(raw::fmap_area(&old, 127, &mut area), 0);
        assert_eq!(raw::fmap_named(&old, b"AREA_126", &mut number), 0);
        assert_eq!(number, 127);
        assert_eq!(raw::fmap_carry(&old, &mut new), 0);
    });
}
