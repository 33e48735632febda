//! Texts that the grammar makes, and texts changed from them.

use super::call;
use crate::run::{shown, Difference, Outcome, Run};
use testkit::layout::{blanks, changed_bytes, changed_numbers, changed_tokens, joined, Layout, Wanted};
use testkit::random::Random;

const DRAWN: usize = 2500;
const CHANGED: usize = 8000;

/// Every kind of token, and comments; each pair of neighbours that the grammar has stands in one of them.
const TEXTS: [&[u8]; 5] = [
    b"PRINTNODE@0xff800000 8K {\n  BOOT 2K { FMAP 1K }\n  RW_CAL(PRESERVE)@3K 64\n  RW_LOG\n}\n",
    b"I 999{A(CBFS PRESERVE)9 B@20{C(PRESERVE){D@1 E@3 3}}FMAP@100}#",
    b"I @ 0 98 { FMAP ( CBFS ) @ 0 }",
    b"N#c\n@#c\r\n0x10#c\n1M#c\n{#c}\nFMAP#(\n2K#@\nA#\n(#\nCBFS#\n)#\n@#\n1K#\n{#\nB#\n}#\n}#",
    b"A 700 { A { FMAP 300 } K@0x12C(}",
];

/// Each text cut at every byte.
pub fn cut(run: &mut Run) -> Outcome {
    let mut texts: Vec<Vec<u8>> = TEXTS.iter().map(|text| text.to_vec()).collect();
    for sections in [3, 8, 20] {
        texts.push(layout(sections, &mut run.random).text(&mut run.random));
    }
    for text in texts {
        for end in 0..=text.len() {
            call::all(run, &text[..end])?;
        }
    }
    Ok(())
}

fn layout(sections: usize, random: &mut Random) -> Layout {
    let coreboot = sections > 1 && random.below(2) == 0;
    Layout::random(Wanted { sections, coreboot }, random)
}

/// Good layouts of 1 to 128 sections in any spelling.
pub fn drawn(run: &mut Run) -> Outcome {
    for k in 0..DRAWN {
        let sections = 1 + run.random.below(if k % 25 == 0 { 128 } else { 12 });
        let text = layout(sections, &mut run.random).text(&mut run.random);
        let answer = call::all(run, &text)?;
        if answer != 0 && text.len() <= 32_768 {
            let what = format!("fmd({}): a good layout, but both answer {answer}", shown(&text));
            return Err(Difference::new(what));
        }
    }
    Ok(())
}

/// Every byte value put in before and behind every token, and in place of the blank between two.
pub fn each_byte(run: &mut Run) -> Outcome {
    let text: Vec<&[u8]> =
        b"I @ 0 900 { A ( CBFS PRESERVE ) @ 7 0x10 B 800 { FMAP @ 0x1 } C }".split(|b| *b == b' ').collect();
    for at in 0..=text.len() {
        for value in 0..=u8::MAX {
            for (before, behind) in [(" ", " "), ("", " "), (" ", ""), ("", "")] {
                let put = [before.as_bytes(), &[value], behind.as_bytes()].concat();
                let text = [text[..at].join(&b' '), put, text[at..].join(&b' ')].concat();
                call::all(run, &text)?;
            }
        }
    }
    for text in TEXTS {
        for at in 0..=text.len() {
            let value = run.random.number() as u8;
            for value in [value, b'@', b'{', b'}', b'(', b')', b'#', b' ', b'\n', b'A', b'0', b'K', 0x80] {
                call::all(run, &[&text[..at], &[value], &text[at..]].concat())?;
            }
        }
    }
    Ok(())
}

/// Good texts with tokens, numbers or bytes changed.
pub fn changed(run: &mut Run) -> Outcome {
    for k in 0..CHANGED {
        let sections = 1 + run.random.below(9);
        let tokens = layout(sections, &mut run.random).tokens(&mut run.random);
        let random = &mut run.random;
        let text = match k % 4 {
            0 => changed_tokens(&tokens, random),
            3 => changed_numbers(&tokens, random),
            1 => changed_bytes(&joined(&tokens, random), random),
            // One blank between all tokens, so that most changes are not in blanks.
            _ => changed_bytes(&[tokens.join(&b' '), blanks(random)].concat(), random),
        };
        call::all(run, &text)?;
    }
    Ok(())
}
