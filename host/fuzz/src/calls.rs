//! Each call on arguments made from an input, by the library and by the second implementation.

use crate::both::{both, in_place, units, Outcome};
use crate::disk::{filled, lengths, script};
use crate::flash;
use crate::input::Input;
use second::{NewPartition, Rules, RULES};
use testkit::strings::{many, TEXT_MAX};
use usigrambal::raw;

/// Longer images would take the fuzzer's time.
const LONGEST_IMAGE: u64 = 1 << 17;

const LONGEST_TEXT: usize = 32_768;

/// The byte before a layout string that lengthens it to the most bytes, or to one more, by zeros before its last size, or
/// puts partitions for all slots but one before the others.
pub const LONGEST: u8 = 0xFE;
pub const LONGER: u8 = 0xFF;
pub const FIRST_SLOTS: u8 = 0xFD;
const SLOTS: usize = 128;

pub fn usi_crc32(rules: &Rules, input: &mut Input) -> Outcome {
    both([input.rest().to_vec()], |[data], []| raw::crc32(data), |[data], []| second::crc32(rules, data))
}

pub fn usi_guid_read(rules: &Rules, input: &mut Input) -> Outcome {
    let (guid, text) = (input.buffer(16), input.rest().to_vec());
    both(
        [text, guid],
        |[text, guid], []| raw::guid_read(text, guid),
        |[text, guid], []| second::guid_read(rules, text, guid),
    )
}

pub fn usi_type_read(rules: &Rules, input: &mut Input) -> Outcome {
    let (guid, text) = (input.buffer(16), input.rest().to_vec());
    both(
        [text, guid],
        |[text, guid], []| raw::type_read(text, guid),
        |[text, guid], []| second::type_read(rules, text, guid),
    )
}

pub fn usi_guid_write(rules: &Rules, input: &mut Input) -> Outcome {
    let (text, guid) = (input.buffer(36), input.rest().to_vec());
    both(
        [guid, text],
        |[guid, text], []| raw::guid_write(guid, text),
        |[guid, text], []| second::guid_write(rules, guid, text),
    )
}

pub fn usi_fmap_find(rules: &Rules, input: &mut Input) -> Outcome {
    both(
        [flash::image(input)],
        |[image], [position]| raw::fmap_find(image, position),
        |[image], [position]| second::fmap_find(rules, image, position),
    )
}

/// An even byte chooses a signature, whose position is asked for; an odd one, and an image without any, a number.
pub fn usi_fmap_fault(rules: &Rules, input: &mut Input) -> Outcome {
    let (place, any) = (input.byte(), input.number(0));
    let image = flash::image(input);
    let signatures = (0..image.len()).filter(|at| image[*at..].starts_with(b"__FMAP__"));
    let chosen = signatures.map(|at| at as u64).nth(usize::from(place / 2)).filter(|_| place % 2 == 0);
    let position = chosen.unwrap_or(any);
    both(
        [image],
        |[image], [rule]| raw::fmap_fault(image, position, rule),
        |[image], [rule]| second::fmap_fault(rules, image, position, rule),
    )
}

pub fn usi_fmap_area(rules: &Rules, input: &mut Input) -> Outcome {
    let (k, area) = (input.number(0), input.buffer(42));
    both(
        [flash::image(input), area],
        |[image, area], []| raw::fmap_area(image, k, area),
        |[image, area], []| second::fmap_area(rules, image, k, area),
    )
}

pub fn usi_fmap_named(rules: &Rules, input: &mut Input) -> Outcome {
    let len = usize::from(input.byte() % 40);
    let name = input.bytes(len).to_vec();
    both(
        [flash::image(input), name],
        |[image, name], [k]| raw::fmap_named(image, name, k),
        |[image, name], [k]| second::fmap_named(rules, image, name, k),
    )
}

pub fn usi_fmap_carry(rules: &Rules, input: &mut Input) -> Outcome {
    let (old, new) = (flash::image(input), flash::image(input));
    both(
        [old, new],
        |[old, new], []| raw::fmap_carry(old, new),
        |[old, new], []| second::fmap_carry(rules, old, new),
    )
}

pub fn usi_gpt_format(rules: &Rules, input: &mut Input) -> Outcome {
    let (lengths, guid) = (lengths(input), input.guid());
    let (n, block, [head, tail]) = (lengths.n, lengths.block, script(&lengths, &[], input));
    both(
        [head, tail, guid],
        |[head, tail, guid], []| raw::gpt_format(head, tail, n, block, guid),
        |[head, tail, guid], []| second::gpt_format(rules, head, tail, n, block, guid),
    )
}

pub fn usi_gpt_build(rules: &Rules, input: &mut Input) -> Outcome {
    let (lengths, alignment) = (lengths(input), input.alignment());
    let (n, block, [head, tail]) = (lengths.n, lengths.block, filled(&lengths, input.byte()));
    both(
        [head, tail, string(lengths.shape.block, input)],
        |[head, tail, text], []| raw::gpt_build(head, tail, n, block, alignment, text),
        |[head, tail, text], []| second::gpt_build(rules, head, tail, n, block, alignment, text),
    )
}

/// The rest of the input, after a byte that may lengthen it.
fn string(block: u64, input: &mut Input) -> Vec<u8> {
    let kind = input.byte();
    let mut text = input.rest().to_vec();
    match kind {
        LONGEST => insert(&mut text, b"size=", TEXT_MAX, b'0'),
        LONGER => insert(&mut text, b"size=", TEXT_MAX + 1, b'0'),
        FIRST_SLOTS => {
            let at = text.iter().position(|byte| *byte == b';').unwrap_or(text.len());
            let first = many(SLOTS - 1, block);
            let at_first = first.find(';').unwrap_or(0);
            text.splice(at..at, first[at_first..].bytes());
        }
        _ => {}
    }
    text
}

/// Lengthens the text to so many bytes by this one, behind the last of these words.
fn insert(text: &mut Vec<u8>, word: &[u8], len: usize, byte: u8) {
    let found = text.windows(word.len()).rposition(|part| part == word);
    let at = found.map_or(text.len(), |at| at + word.len());
    let missing = len.saturating_sub(text.len());
    text.splice(at..at, vec![byte; missing]);
}

pub fn usi_gpt_read(rules: &Rules, input: &mut Input) -> Outcome {
    let lengths = lengths(input);
    let (n, block) = (lengths.n, lengths.block);
    both(
        script(&lengths, &[], input),
        |[head, tail], [state]| raw::gpt_read(head, tail, n, block, state),
        |[head, tail], [state]| second::gpt_read(rules, head, tail, n, block, state),
    )
}

pub fn usi_gpt_table(rules: &Rules, input: &mut Input) -> Outcome {
    let lengths = lengths(input);
    let (n, block) = (lengths.n, lengths.block);
    both(
        script(&lengths, &[], input),
        |[head, tail], [in_tail, offset]| raw::gpt_table(head, tail, n, block, in_tail, offset),
        |[head, tail], [in_tail, offset]| second::gpt_table(rules, head, tail, n, block, in_tail, offset),
    )
}

pub fn usi_gpt_free(rules: &Rules, input: &mut Input) -> Outcome {
    let lengths = lengths(input);
    let (n, block) = (lengths.n, lengths.block);
    both(
        script(&lengths, &[], input),
        |[head, tail], [free, longest]| raw::gpt_free(head, tail, n, block, free, longest),
        |[head, tail], [free, longest]| second::gpt_free(rules, head, tail, n, block, free, longest),
    )
}

pub fn usi_gpt_check(rules: &Rules, input: &mut Input) -> Outcome {
    let (lengths, rule) = (lengths(input), input.rule());
    let (n, block) = (lengths.n, lengths.block);
    both(
        script(&lengths, &[], input),
        |[head, tail], [slot]| raw::gpt_check(head, tail, n, block, rule, slot),
        |[head, tail], [slot]| second::gpt_check(rules, head, tail, n, block, rule, slot),
    )
}

pub fn usi_gpt_add(rules: &Rules, input: &mut Input) -> Outcome {
    let lengths = lengths(input);
    let (n, block) = (lengths.n, lengths.block);
    let (kind, unique) = (input.guid(), input.guid());
    let (size, alignment) = (input.number(n), input.alignment());
    let (attributes, rule, name) = (input.attributes(), input.rule(), input.name());
    let [head, tail] = script(&lengths, &name, input);
    both(
        [head, tail, kind, unique, name],
        |[head, tail, kind, unique, name], [slot, first]| {
            let name = in_place(name);
            let new = raw::NewPartition { kind, unique, size, alignment, attributes, rule, name };
            raw::gpt_add(head, tail, n, block, &new, slot, first)
        },
        |[head, tail, kind, unique, name], [slot, first]| {
            let name = &units(name);
            let new = NewPartition { kind, unique, size, alignment, attributes, rule, name };
            second::gpt_add(rules, head, tail, n, block, &new, slot, first)
        },
    )
}

pub fn usi_gpt_delete(rules: &Rules, input: &mut Input) -> Outcome {
    let (lengths, slot) = (lengths(input), input.number(0));
    let (n, block) = (lengths.n, lengths.block);
    both(
        script(&lengths, &[], input),
        |[head, tail], []| raw::gpt_delete(head, tail, n, block, slot),
        |[head, tail], []| second::gpt_delete(rules, head, tail, n, block, slot),
    )
}

pub fn usi_gpt_resize(rules: &Rules, input: &mut Input) -> Outcome {
    let (lengths, slot) = (lengths(input), input.number(0));
    let (n, block) = (lengths.n, lengths.block);
    let size = input.number(n);
    both(
        script(&lengths, &[], input),
        |[head, tail], []| raw::gpt_resize(head, tail, n, block, slot, size),
        |[head, tail], []| second::gpt_resize(rules, head, tail, n, block, slot, size),
    )
}

pub fn usi_gpt_rename(rules: &Rules, input: &mut Input) -> Outcome {
    let (lengths, slot, name) = (lengths(input), input.number(0), input.name());
    let (n, block, [head, tail]) = (lengths.n, lengths.block, script(&lengths, &name, input));
    both(
        [head, tail, name],
        |[head, tail, name], []| raw::gpt_rename(head, tail, n, block, slot, in_place(name)),
        |[head, tail, name], []| second::gpt_rename(rules, head, tail, n, block, slot, &units(name)),
    )
}

pub fn usi_gpt_repair(rules: &Rules, input: &mut Input) -> Outcome {
    let lengths = lengths(input);
    let (n, block) = (lengths.n, lengths.block);
    both(
        script(&lengths, &[], input),
        |[head, tail], [state]| raw::gpt_repair(head, tail, n, block, state),
        |[head, tail], [state]| second::gpt_repair(rules, head, tail, n, block, state),
    )
}

/// The rest of the input, after a byte that may lengthen it with blanks to the longest text or one more.
fn text(input: &mut Input) -> Vec<u8> {
    let kind = input.byte();
    let mut text = input.rest().to_vec();
    match kind {
        0xFE => text.resize(LONGEST_TEXT, b' '),
        0xFF => text.resize(LONGEST_TEXT + 1, b' '),
        _ => {}
    }
    text
}

pub fn usi_fmd_read(rules: &Rules, input: &mut Input) -> Outcome {
    let (name, text) = (input.buffer(32), text(input));
    both(
        [text, name],
        |[text, name], [size, address, count]| raw::fmd_read(text, name, size, address, count),
        |[text, name], [size, address, count]| second::fmd_read(rules, text, name, size, address, count),
    )
}

pub fn usi_fmd_records(rules: &Rules, input: &mut Input) -> Outcome {
    let (records, text) = (input.buffer(raw::RECORDS * raw::RECORD_LEN), text(input));
    both(
        [text, records],
        |[text, records], [count]| raw::fmd_records(text, records, count),
        |[text, records], [count]| second::fmd_records(rules, text, records, count),
    )
}

/// The image has mostly the length that the text states.
pub fn usi_fmd_write(rules: &Rules, input: &mut Input) -> Outcome {
    let (mut length, filler) = (Input::new(input.bytes(1)), input.byte());
    let text = text(input);
    let (mut stated, mut address, mut count) = (0, 0, 0);
    second::fmd_read(&RULES, &text, &mut [0; 32], &mut stated, &mut address, &mut count);
    let image = vec![filler; length.length(stated.min(LONGEST_IMAGE) as usize)];
    both(
        [text, image],
        |[text, image], []| raw::fmd_write(text, image),
        |[text, image], []| second::fmd_write(rules, text, image),
    )
}
