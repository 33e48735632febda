//! The kinds of texts on which the rules and fmaptool differ.

/// A kind of texts on which the rules and fmaptool differ.
pub struct Kind {
    /// The sentence of the rules, as docs/TRACE.md numbers them.
    pub rule: &'static str,
    pub name: &'static str,
    /// What the rules give: 0 where fmaptool refuses the text, else a refusal where fmaptool accepts it.
    pub numbers: &'static [u32],
    pub texts: fn() -> Vec<Vec<u8>>,
}

/// An image with the sections FMAP and COREBOOT that fmaptool demands, and these.
fn with(sections: &[u8]) -> Vec<u8> {
    [b"CHIP@0xff800000 9K { FMAP 1K COREBOOT(CBFS)@2K 1K ", sections, b" }\n"].concat()
}

fn each_with(sections: &[&[u8]]) -> Vec<Vec<u8>> {
    sections.iter().map(|sections| with(sections)).collect()
}

fn each(texts: &[&[u8]]) -> Vec<Vec<u8>> {
    texts.iter().map(|text| text.to_vec()).collect()
}

pub const KINDS: &[Kind] = &[
    Kind {
        rule: "A2",
        name: "no COREBOOT",
        numbers: &[0],
        texts: || {
            each(&[
                b"CHIP 9K { FMAP }",
                b"CHIP 9K { FMAP 1K COREBOOT }",
                b"CHIP 9K { FMAP 1K COREBOOT(PRESERVE) 1K A(CBFS) }",
                b"COREBOOT 9K { FMAP(CBFS) }",
            ])
        },
    },
    Kind {
        rule: "L4",
        name: "VT and FF",
        numbers: &[51],
        texts: || each_with(&[b"A\x0B9", b"A 9\x0C", b"\x0BA(CBFS\x0CPRESERVE) 9"]),
    },
    Kind {
        rule: "L4",
        name: "a comment at the text's end",
        numbers: &[0],
        texts: || vec![[with(b"A"), b"# the end".to_vec()].concat(), [with(b"A"), b"#".to_vec()].concat()],
    },
    Kind {
        rule: "L5",
        name: "other bytes in words",
        numbers: &[51],
        texts: || each_with(&[b"A\x80 9", b"\x01 9", b"A\x7FB 9", b"\xC3\xA4(PRESERVE)", b"A 9 \x1F\xFF"]),
    },
    Kind {
        rule: "L6",
        name: "a digit in front of a name",
        numbers: &[52, 53],
        texts: || {
            let mut texts = each_with(&[
                b"A 9 9A 9",
                b"A@4K 1x@5K 9",
                b"A 9 { 0x }",
                b"A 9 1KB 9",
                b"A 9 1k",
                b"A 9 0x1g 9",
            ]);
            texts.extend(each(&[b"9CHIP 9K { FMAP 1K COREBOOT(CBFS) }"]));
            texts
        },
    },
    Kind {
        rule: "L8",
        name: "0X",
        numbers: &[52],
        texts: || each_with(&[b"A 0X10", b"A@0X1000 9", b"A 0X1K"]),
    },
    Kind {
        rule: "L8",
        name: "a number above 4,294,967,295",
        numbers: &[52],
        texts: || {
            let mut texts = each_with(&[b"A 4294967305", b"A@0x100001000 9", b"A@4194308K 9"]);
            texts.extend(each(&[
                b"CHIP@0x1ffffffff 9K { FMAP 1K COREBOOT(CBFS) }",
                b"CHIP 4294967395 { FMAP 1 COREBOOT(CBFS) 1 }",
            ]));
            texts
        },
    },
    Kind {
        rule: "L1",
        name: "an image size outside its range",
        numbers: &[52],
        texts: || {
            each(&[
                b"CHIP 97 { FMAP 9 COREBOOT(CBFS) 9 }",
                b"CHIP 16777217 { FMAP 1K COREBOOT(CBFS) }",
                b"CHIP 32M { FMAP 1K COREBOOT(CBFS) }",
            ])
        },
    },
    Kind {
        rule: "Q5",
        name: "a long text",
        numbers: &[50],
        texts: || vec![[with(b"A"), vec![b' '; 32_769]].concat(), [vec![b'\n'; 32_769], with(b"A")].concat()],
    },
    Kind {
        rule: "Q5",
        name: "many sections or levels",
        numbers: &[55],
        texts: || {
            let list: String = (0..127).map(|k| format!("S{k} 1 ")).collect();
            let nest: String = (0..8).map(|k| format!("L{k} {{ ")).collect();
            let text = format!("CHIP 16K {{ FMAP 8K COREBOOT(CBFS) 1K {list} }}");
            vec![text.into_bytes(), with(format!("{nest} L {}", "}".repeat(8)).as_bytes())]
        },
    },
    Kind {
        rule: "R20",
        name: "a repeated flag",
        numbers: &[56],
        texts: || each_with(&[b"A(CBFS CBFS)", b"A(PRESERVE PRESERVE) 9", b"A(CBFS PRESERVE CBFS) 9"]),
    },
    Kind {
        rule: "L13",
        name: "a size undecided",
        numbers: &[57],
        texts: || each_with(&[b"A B 9", b"A 90 { B C 9 D@50 }", b"A@4K B 9 C 9"]),
    },
    Kind {
        rule: "L14",
        name: "a computed size of 0",
        numbers: &[58],
        texts: || each_with(&[b"A@4K B@4K", b"A 90 { B@90 }", b"A 90 { B 90 C }", b"A@9K"]),
    },
    Kind {
        rule: "L14",
        name: "a sum past 2^32",
        numbers: &[58],
        texts: || each_with(&[b"A@4K 0xfffff000", b"A 90 { B@9 0xfffffff8 }", b"A@0xffffff00 0x1f00 B 9"]),
    },
    Kind {
        rule: "R22",
        name: "section FMAP",
        numbers: &[59],
        texts: || {
            each(&[
                b"CHIP 9K { FMAP { A 9 COREBOOT(CBFS) } }",
                b"CHIP 9K { FMAP 1K { A 9 } COREBOOT(CBFS) }",
                b"CHIP 9K { FMAP 139 COREBOOT(CBFS) }",
                b"FMAP 9K { COREBOOT(CBFS) }",
            ])
        },
    },
];
