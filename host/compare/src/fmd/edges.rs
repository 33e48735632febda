//! Texts on both sides of each bound.

use super::call::{self, LIST_LEN, NAME_LEN};
use crate::run::{Outcome, Run};
use testkit::layout::worst_text;

/// Words where a number can stand.
const NUMBERS: &[&str] = &[
    "0",
    "1",
    "9",
    "10",
    "97",
    "98",
    "99",
    "00",
    "01",
    "010",
    "0x",
    "0x0",
    "0x1",
    "0x10",
    "0x00",
    "0x0010",
    "0X1",
    "0xg",
    "0x1G",
    "0xabcdef",
    "0xABCDEF",
    "0xAbC",
    "0x62",
    "0K",
    "0M",
    "0G",
    "1K",
    "1M",
    "1G",
    "3G",
    "4G",
    "5G",
    "1k",
    "1m",
    "1g",
    "1KK",
    "1KM",
    "1KB",
    "K",
    "M",
    "G",
    "x",
    "0xK",
    "0x1K",
    "0x1KK",
    "0x62K",
    "00K",
    "01K",
    "16K",
    "16M",
    "17M",
    "16383K",
    "16384K",
    "16385K",
    "16777215",
    "16777216",
    "16777217",
    "4194303K",
    "4194304K",
    "4095M",
    "4096M",
    "2147483647",
    "2147483648",
    "4294967294",
    "4294967295",
    "4294967296",
    "4294967297",
    "4294967394",
    "0xfffffffe",
    "0xffffffff",
    "0x100000000",
    "0x100000062",
    "18446744073709551615",
    "18446744073709551616",
    "18446744073709551617",
    "18446744073709551714",
    "18014398509481984K",
    "18014398509481985K",
    "17179869184G",
    "0x10000000000000000",
    "0x10000000000000062",
    "340282366920938463463374607431768211456",
    "340282366920938463463374607431768211554",
    "99999999999999999999999999999999999999999999999999999",
    "0x00000000000000000000000000000000000000000000000000000000000000000000000000062",
    "+1",
    "-1",
    "1+",
    "1.0",
    "1_0",
    "1,0",
    "a0",
    "1e2",
    "0b1",
    "0o7",
    "1x",
    "x1",
    "9x",
    "1A",
    "1f",
    "0xf",
    "0x9f",
    "0xf9",
    "$1",
    "\"1\"",
    "1K1",
    "K1",
    "1:",
    "1/",
    "9:",
    "0x1:",
    "0x1@",
    "0x1`",
];

/// Each word at each place of a number.
pub fn numbers(run: &mut Run) -> Outcome {
    for word in NUMBERS {
        for text in [
            format!("I@{word} 9K {{ FMAP }}"),
            format!("I {word} {{ FMAP }}"),
            format!("I 1M {{ A@{word} 1 FMAP@512K }}"),
            format!("I 1M {{ A {word} FMAP@512K }}"),
            format!("I 1M {{ A(CBFS) {word} FMAP@512K }}"),
            format!("I 1M {{ A@1 {word} FMAP@512K }}"),
            format!("I 1M {{ A(PRESERVE)@1 {word} {{ B }} FMAP@512K }}"),
            format!("I 1M {{ A 9 {word} 9 FMAP@512K }}"),
            format!("I 1M {{ A 9 {{ B }} {word} 9 FMAP@512K }}"),
            format!("{word} 9K {{ FMAP }}"),
            format!("I 9K {{ {word} FMAP@1K }}"),
            format!("I 9K {word} {{ FMAP }}"),
            format!("I 9K {{ FMAP }} {word}"),
            format!("I 9K {{ FMAP({word}) }}"),
        ] {
            call::all(run, text.as_bytes())?;
        }
    }
    Ok(())
}

/// Names of every length to 40 and with every byte, of the image, of a section and of section FMAP's neighbours.
pub fn names(run: &mut Run) -> Outcome {
    let each = |run: &mut Run, name: &[u8]| {
        call::all(run, &[name, b" 9K{FMAP}"].concat())?;
        call::all(run, &[b"I 9K{", name, b" 9 FMAP}"].concat())?;
        call::all(run, &[b"I 9K{A 9{", name, b" }FMAP}"].concat())
    };
    for len in 0..40 {
        each(run, &b"N".repeat(len))?;
        each(run, &[b"n".repeat(len), b"#".to_vec()].concat())?;
    }
    for byte in 0..=u8::MAX {
        for name in [&[byte][..], &[b'A', byte], &[byte, b'A'], &[b'A', byte, b'B'], &[b'9', byte]] {
            each(run, name)?;
        }
    }
    for name in ["FMA", "FMAPP", "fmap", "FMAP_", "_FMAP", "COREBOOT", "CBFS", "PRESERVE"] {
        each(run, name.as_bytes())?;
        call::all(run, format!("{name} 9K {{ {name} }}").as_bytes())?;
        call::all(run, format!("FMAP 9K {{ {name} }}").as_bytes())?;
        call::all(run, format!("I 9K {{ FMAP 1K A {{ {name} 9 }} }}").as_bytes())?;
    }
    // Names that differ in a byte, in case or in length alone.
    for (one, other) in [("A", "a"), ("A", "AA"), ("AB", "AC"), ("BA", "CA"), ("A", "A")] {
        for text in [
            format!("I 9K {{ {one} 9 {other} 9 FMAP }}"),
            format!("I 9K {{ {one} 9 FMAP 1K {other} 9 }}"),
            format!("I 9K {{ {one} 9 {{ {other} }} FMAP }}"),
            format!("I 9K {{ B9 9 {{ {one} }} C9 9 {{ {other} }} FMAP }}"),
            format!("{one} 9K {{ {other} 9 FMAP }}"),
        ] {
            call::all(run, text.as_bytes())?;
        }
    }
    Ok(())
}

/// Section FMAP with a byte more, as much or a byte less than the map needs, at any level, before and behind others.
pub fn room(run: &mut Run) -> Outcome {
    for others in [0, 1, 2, 7, 127] {
        let need = 56 + 42 * (others + 1);
        let list: String = (0..others).map(|k| format!("S{k} 3 ")).collect();
        for size in [1, need - 42, need - 1, need, need + 1, need + 42, need + 83, need + 84] {
            for text in [
                format!("I 16K {{ {list} FMAP {size} }}"),
                format!("I 16K {{ FMAP {size} {list} }}"),
                format!("I 16K {{ {list} FMAP@8K {size} }}"),
                format!("I {} {{ {list} FMAP }}", (size + 3 * others).max(98)),
                format!("I {} {{ {list} FMAP {size} }}", (size + 3 * others).max(98)),
                format!("I 16K {{ FMAP {size} P@8K {{ Q {{ {list} }} }} }}"),
                format!("I 16K {{ P@1 8K {{ Q@2 {{ FMAP@3 {size} }} }} {list} }}"),
                format!("I 16K {{ FMAP(CBFS PRESERVE)@5 {size} {list} }}"),
            ] {
                call::all(run, text.as_bytes())?;
            }
        }
    }
    Ok(())
}

/// Two and three siblings, each with every offset and size of a few, in a parent of 7 bytes.
pub fn siblings(run: &mut Run) -> Outcome {
    let choices = |numbers: &[&'static str]| {
        let mut words = vec![String::new()];
        words.extend(numbers.iter().map(|number| number.to_string()));
        words
    };
    let head = |offset: &str, size: &str| match offset {
        "" => size.to_string(),
        _ => format!("@{offset} {size}"),
    };
    let offsets = choices(&["0", "1", "3", "6", "7", "8", "0xffffffff"]);
    let sizes = choices(&["0", "1", "3", "6", "7", "8", "0xffffffff"]);
    let pairs: Vec<String> = offsets.iter().flat_map(|o| sizes.iter().map(|s| head(o, s))).collect();
    for a in &pairs {
        for b in &pairs {
            call::all(run, format!("I 900 {{ P@300 7 {{ A{a} B{b} }} FMAP@400 }}").as_bytes())?;
        }
    }
    let offsets = choices(&["0", "2", "4"]);
    let sizes = choices(&["0", "2", "5"]);
    let few: Vec<String> = offsets.iter().flat_map(|o| sizes.iter().map(|s| head(o, s))).collect();
    for a in &few {
        for b in &few {
            for c in &few {
                call::all(run, format!("I 900 {{ FMAP 300 P 7 {{ A{a} B{b} C{c} }} }}").as_bytes())?;
            }
        }
    }
    Ok(())
}

/// 127 to 130 sections, 7 to 10 levels, 32,767 to 32,770 bytes; and all at once.
pub fn most(run: &mut Run) -> Outcome {
    for count in 126..131 {
        let list: String = (1..count).map(|k| format!("S{k} 9 ")).collect();
        call::all(run, format!("I 32K {{ {list} FMAP }}").as_bytes())?;
        call::all(run, format!("I 32K {{ FMAP 9K {list} }}").as_bytes())?;
        call::all(run, format!("I 32K {{ FMAP 9K {list} 9 }}").as_bytes())?;
        call::all(run, format!("I 32K {{ FMAP 9K P {{ {list} }} }}").as_bytes())?;
        for wrong in ["\x7F", "{", ")", "9A", "A(x)", "A@", "A@x", "A 01", ""] {
            call::all(run, format!("I 32K {{ FMAP 9K {list} {wrong}").as_bytes())?;
        }
    }
    for levels in 6..11 {
        let open: String = (1..levels).map(|level| format!("L{level} {{ ")).collect();
        for inmost in ["FMAP", "FMAP 9", "9", "A(x) 9", "A@x", "", "{", ")", "A {", "A {}", "\x7F"] {
            let text = format!("I 9K {{ {open} {inmost} {} }}", "}".repeat(levels - 1));
            call::all(run, text.as_bytes())?;
        }
    }
    let worst = worst_text();
    for len in 32_766..32_771 {
        for end in ["", "}", "#"] {
            let mut text = worst.clone();
            text.resize(len - end.len(), b' ');
            text.extend(end.as_bytes());
            call::all(run, &text)?;
            call::read(run, &text, NAME_LEN - 1)?;
            call::records(run, &text, LIST_LEN - 1)?;
        }
        for filler in [b' ', b'A', b'{', b'#', 0x80, b'9'] {
            call::all(run, &vec![filler; len])?;
        }
        let deep: Vec<u8> = [b"I 9K {".to_vec(), b"A{".repeat((len - 6) / 2)].concat();
        call::all(run, &deep)?;
    }
    Ok(())
}

/// Images of up to the largest size.
pub fn large(run: &mut Run) -> Outcome {
    for (size, len) in [("1M", 1 << 20), ("16777215", (1 << 24) - 1), ("16M", 1 << 24)] {
        let text = format!("I@0xff000000 {size} {{ A 512K {{ B@100K 1 }} FMAP@700K 4K C }}");
        call::all(run, text.as_bytes())?;
        call::write(run, text.as_bytes(), len, None)?;
    }
    Ok(())
}
