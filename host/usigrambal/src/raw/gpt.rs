//! The disk calls. A refusal leaves every buffer and every number answer alone.

mod c {
    extern "C" {
        pub fn usi_gpt_format(
            head: *mut u8,
            head_len: usize,
            tail: *mut u8,
            tail_len: usize,
            n: u64,
            block: u64,
            guid: *const u8,
            guid_len: usize,
        ) -> u32;
        pub fn usi_gpt_build(
            head: *mut u8,
            head_len: usize,
            tail: *mut u8,
            tail_len: usize,
            n: u64,
            block: u64,
            alignment: u64,
            text: *const u8,
            text_len: usize,
        ) -> u32;
        pub fn usi_gpt_read(
            head: *const u8,
            head_len: usize,
            tail: *const u8,
            tail_len: usize,
            n: u64,
            block: u64,
            state: *mut u64,
        ) -> u32;
        pub fn usi_gpt_table(
            head: *const u8,
            head_len: usize,
            tail: *const u8,
            tail_len: usize,
            n: u64,
            block: u64,
            in_tail: *mut u64,
            offset: *mut u64,
        ) -> u32;
        pub fn usi_gpt_free(
            head: *const u8,
            head_len: usize,
            tail: *const u8,
            tail_len: usize,
            n: u64,
            block: u64,
            free: *mut u64,
            longest: *mut u64,
        ) -> u32;
        pub fn usi_gpt_check(
            head: *const u8,
            head_len: usize,
            tail: *const u8,
            tail_len: usize,
            n: u64,
            block: u64,
            rule: u64,
            slot: *mut u64,
        ) -> u32;
        pub fn usi_gpt_add(
            head: *mut u8,
            head_len: usize,
            tail: *mut u8,
            tail_len: usize,
            n: u64,
            block: u64,
            kind: *const u8,
            kind_len: usize,
            unique: *const u8,
            unique_len: usize,
            size: u64,
            alignment: u64,
            attributes: u64,
            rule: u64,
            name: *const u16,
            name_units: usize,
            slot: *mut u64,
            first: *mut u64,
        ) -> u32;
        pub fn usi_gpt_delete(
            head: *mut u8,
            head_len: usize,
            tail: *mut u8,
            tail_len: usize,
            n: u64,
            block: u64,
            slot: u64,
        ) -> u32;
        pub fn usi_gpt_resize(
            head: *mut u8,
            head_len: usize,
            tail: *mut u8,
            tail_len: usize,
            n: u64,
            block: u64,
            slot: u64,
            size: u64,
        ) -> u32;
        pub fn usi_gpt_rename(
            head: *mut u8,
            head_len: usize,
            tail: *mut u8,
            tail_len: usize,
            n: u64,
            block: u64,
            slot: u64,
            name: *const u16,
            name_units: usize,
        ) -> u32;
        pub fn usi_gpt_repair(
            head: *mut u8,
            head_len: usize,
            tail: *mut u8,
            tail_len: usize,
            n: u64,
            block: u64,
            state: *mut u64,
        ) -> u32;
    }
}

/// What `gpt_add` is given for a new partition: type and unique GUID as stored, size and
/// alignment in blocks; rule 0 is the present one, every other number the earlier one.
#[derive(Clone, Copy, Debug)]
pub struct NewPartition<'a> {
    pub kind: &'a [u8],
    pub unique: &'a [u8],
    pub size: u64,
    pub alignment: u64,
    pub attributes: u64,
    pub rule: u64,
    pub name: &'a [u16],
}

// Safety of every call below: each pointer and length come from one slice, each answer's pointer
// from one reference, and nothing behind a `&mut` is shared with another argument.

pub fn gpt_format(head: &mut [u8], tail: &mut [u8], n: u64, block: u64, guid: &[u8]) -> u32 {
    let (head_len, tail_len) = (head.len(), tail.len());
    let (head, tail) = (head.as_mut_ptr(), tail.as_mut_ptr());
    unsafe { c::usi_gpt_format(head, head_len, tail, tail_len, n, block, guid.as_ptr(), guid.len()) }
}

pub fn gpt_build(head: &mut [u8], tail: &mut [u8], n: u64, block: u64, alignment: u64, text: &[u8]) -> u32 {
    let (head_len, tail_len) = (head.len(), tail.len());
    let (head, tail) = (head.as_mut_ptr(), tail.as_mut_ptr());
    unsafe {
        c::usi_gpt_build(head, head_len, tail, tail_len, n, block, alignment, text.as_ptr(), text.len())
    }
}

pub fn gpt_read(head: &[u8], tail: &[u8], n: u64, block: u64, state: &mut u64) -> u32 {
    unsafe { c::usi_gpt_read(head.as_ptr(), head.len(), tail.as_ptr(), tail.len(), n, block, state) }
}

pub fn gpt_table(head: &[u8], tail: &[u8], n: u64, block: u64, in_tail: &mut u64, offset: &mut u64) -> u32 {
    unsafe {
        c::usi_gpt_table(head.as_ptr(), head.len(), tail.as_ptr(), tail.len(), n, block, in_tail, offset)
    }
}

pub fn gpt_free(head: &[u8], tail: &[u8], n: u64, block: u64, free: &mut u64, longest: &mut u64) -> u32 {
    unsafe { c::usi_gpt_free(head.as_ptr(), head.len(), tail.as_ptr(), tail.len(), n, block, free, longest) }
}

pub fn gpt_check(head: &[u8], tail: &[u8], n: u64, block: u64, rule: u64, slot: &mut u64) -> u32 {
    unsafe { c::usi_gpt_check(head.as_ptr(), head.len(), tail.as_ptr(), tail.len(), n, block, rule, slot) }
}

pub fn gpt_add(
    head: &mut [u8],
    tail: &mut [u8],
    n: u64,
    block: u64,
    new: &NewPartition,
    slot: &mut u64,
    first: &mut u64,
) -> u32 {
    unsafe {
        c::usi_gpt_add(
            head.as_mut_ptr(),
            head.len(),
            tail.as_mut_ptr(),
            tail.len(),
            n,
            block,
            new.kind.as_ptr(),
            new.kind.len(),
            new.unique.as_ptr(),
            new.unique.len(),
            new.size,
            new.alignment,
            new.attributes,
            new.rule,
            new.name.as_ptr(),
            new.name.len(),
            slot,
            first,
        )
    }
}

pub fn gpt_delete(head: &mut [u8], tail: &mut [u8], n: u64, block: u64, slot: u64) -> u32 {
    unsafe { c::usi_gpt_delete(head.as_mut_ptr(), head.len(), tail.as_mut_ptr(), tail.len(), n, block, slot) }
}

pub fn gpt_resize(head: &mut [u8], tail: &mut [u8], n: u64, block: u64, slot: u64, size: u64) -> u32 {
    unsafe {
        c::usi_gpt_resize(head.as_mut_ptr(), head.len(), tail.as_mut_ptr(), tail.len(), n, block, slot, size)
    }
}

pub fn gpt_rename(head: &mut [u8], tail: &mut [u8], n: u64, block: u64, slot: u64, name: &[u16]) -> u32 {
    let (head_len, tail_len) = (head.len(), tail.len());
    let (head, tail) = (head.as_mut_ptr(), tail.as_mut_ptr());
    unsafe { c::usi_gpt_rename(head, head_len, tail, tail_len, n, block, slot, name.as_ptr(), name.len()) }
}

pub fn gpt_repair(head: &mut [u8], tail: &mut [u8], n: u64, block: u64, state: &mut u64) -> u32 {
    unsafe {
        c::usi_gpt_repair(head.as_mut_ptr(), head.len(), tail.as_mut_ptr(), tail.len(), n, block, state)
    }
}
