//! A Rattle file, by a scan of its text: functions with their contracts, constants, modules, imports.

use std::ops::Range;

/// A function, with the parts of its text.
#[derive(Clone, Debug, Default)]
pub struct Function {
    pub name: String,
    pub public: bool,
    /// `#[unsafe(no_mangle)] .. extern "C"`
    pub exported: bool,
    /// the comment lines right above it
    pub comment: String,
    /// from its first word up to its contract
    pub signature: String,
    /// the parameters that are lent to be written
    pub lent: Vec<String>,
    /// it has a result
    pub answers: bool,
    pub requires: Vec<String>,
    pub ensures: Vec<String>,
    /// a clause is an assertion: `requires*`, `ensures*`
    pub starred: bool,
    pub contract: Range<usize>,
    pub body: Range<usize>,
}

/// A name that a file imports: as it is called there, and where it is defined.
#[derive(Clone, Debug, PartialEq)]
pub struct Import {
    pub local: String,
    pub name: String,
    pub krate: String,
    /// the file below the crate's specs/, without its ending
    pub module: String,
}

/// The text with comments and the insides of strings as spaces, each byte at its place.
pub fn blanked(text: &str) -> Vec<u8> {
    let mut out = text.as_bytes().to_vec();
    let mut i = 0;
    while i < out.len() {
        let end = match out[i] {
            b'/' if out.get(i + 1) == Some(&b'/') => i + out[i..].iter().take_while(|b| **b != b'\n').count(),
            b'"' => string_end(&out, i),
            b'\'' if out.get(i + 1) == Some(&b'\\') || out.get(i + 2) == Some(&b'\'') => {
                i + 2 + out[i + 2..].iter().take_while(|b| **b != b'\'').count() + 1
            }
            _ => i,
        };
        let quote = out[i];
        let end = end.min(out.len());
        out[i..end].iter_mut().filter(|b| **b != b'\n').for_each(|b| *b = b' ');
        if quote == b'"' {
            out[i] = b'"';
        }
        i = end.max(i + 1);
    }
    out
}

fn string_end(text: &[u8], start: usize) -> usize {
    let mut i = start + 1;
    while i < text.len() && text[i] != b'"' {
        i += if text[i] == b'\\' { 2 } else { 1 };
    }
    i + 1
}

/// The place of the bracket that closes the one at `open`.
fn closing(code: &[u8], open: usize) -> Option<usize> {
    let mut depth = 0;
    for (i, b) in code.iter().enumerate().skip(open) {
        match b {
            b'(' | b'[' | b'{' => depth += 1,
            b')' | b']' | b'}' => depth -= 1,
            _ => {}
        }
        if depth == 0 {
            return Some(i);
        }
    }
    None
}

fn is_word(b: u8) -> bool {
    b == b'_' || b.is_ascii_alphanumeric()
}

/// The places where a word stands, as a word.
fn places(code: &[u8], word: &str) -> Vec<usize> {
    let w = word.as_bytes();
    let bound = |i: Option<&u8>| !i.is_some_and(|b| is_word(*b));
    (0..code.len().saturating_sub(w.len()))
        .filter(|i| {
            code[*i..].starts_with(w) && (*i == 0 || bound(code.get(i - 1))) && bound(code.get(i + w.len()))
        })
        .collect()
}

fn after_blanks(code: &[u8], from: usize) -> usize {
    from + code[from..].iter().take_while(|b| b.is_ascii_whitespace()).count()
}

fn word_at(code: &[u8], from: usize) -> &str {
    let length = code[from..].iter().take_while(|b| is_word(**b)).count();
    std::str::from_utf8(&code[from..from + length]).unwrap_or_default()
}

/// The parts of a list that commas part, those in brackets aside.
fn parted(list: &str) -> Vec<&str> {
    let (mut parts, mut depth, mut start) = (Vec::new(), 0, 0);
    for (i, c) in list.char_indices() {
        match c {
            '(' | '[' | '{' | '<' => depth += 1,
            ')' | ']' | '}' | '>' => depth -= 1,
            ',' if depth == 0 => {
                parts.push(&list[start..i]);
                start = i + 1;
            }
            _ => {}
        }
    }
    parts.push(&list[start..]);
    parts.into_iter().map(str::trim).filter(|part| !part.is_empty()).collect()
}

/// The parameters of a list that are lent to be written.
fn lent(list: &str) -> Vec<String> {
    let writes =
        |kind: &str| kind.starts_with('&') && kind.split_whitespace().take(2).any(|w| w.ends_with("mut"));
    let name = |part: &str| match part.split_once(':') {
        Some((name, kind)) => writes(kind.trim()).then(|| name.trim().trim_start_matches("mut ").to_string()),
        None => writes(part).then(|| "self".to_string()),
    };
    parted(list).into_iter().filter_map(name).collect()
}

/// The comment lines right above a place.
fn comment_above(text: &str, place: usize) -> String {
    let above =
        text[..place].lines().rev().skip_while(|line| line.trim().is_empty() || line.starts_with("#["));
    let mut lines: Vec<&str> =
        above.map_while(|line| line.trim().strip_prefix("//")).map(str::trim).collect();
    lines.reverse();
    lines.join(" ")
}

/// The functions of a file, in its order.
pub fn functions(text: &str) -> Vec<Function> {
    let code = blanked(text);
    places(&code, "fn").into_iter().filter_map(|at| function(text, &code, at)).collect()
}

fn function(text: &str, code: &[u8], at: usize) -> Option<Function> {
    let name_at = after_blanks(code, at + 2);
    let name = word_at(code, name_at).to_string();
    let before = code[..at].iter().rposition(|b| matches!(b, b';' | b'{' | b'}')).map_or(0, |i| i + 1);
    let start = before + text[before..at].rfind("pub").unwrap_or(at - before);
    let open = name_at + code[name_at..].iter().position(|b| *b == b'(')?;
    let close = closing(code, open)?;
    if name.is_empty() {
        return None;
    }
    let mut made = Function {
        name,
        public: places(&code[before..at], "pub").iter().any(|i| code.get(before + i + 3) != Some(&b'(')),
        exported: text[before..at].contains("#[unsafe(no_mangle)]")
            && !places(&code[before..at], "extern").is_empty(),
        comment: comment_above(text, text[before..start].find("#[").map_or(start, |i| before + i)),
        lent: lent(std::str::from_utf8(&code[open + 1..close]).ok()?),
        ..Function::default()
    };
    contract(text, code, close + 1, &mut made)?;
    made.signature = text[start..made.contract.start].trim().to_string();
    Some(made)
}

/// Reads what stands behind the parameters: the result, the clauses, the body.
fn contract(text: &str, code: &[u8], from: usize, made: &mut Function) -> Option<()> {
    let mut at = from;
    let mut first = None;
    loop {
        let open = at + code[at..].iter().position(|b| *b == b'{')?;
        let close = closing(code, open)?;
        made.answers |= first.is_none() && code[at..open].windows(2).any(|w| w == b"->");
        let words = &code[at..open];
        let Some(clause) =
            ["requires", "ensures"].into_iter().find(|w| places(&[words, b" "].concat(), w).len() == 1)
        else {
            made.contract = first.unwrap_or(open)..at;
            made.body = open..close + 1;
            return Some(());
        };
        made.starred |= words.ends_with(b"* ") || words.ends_with(b"*");
        let inside = text[open + 1..close].trim().to_string();
        if clause == "requires" { &mut made.requires } else { &mut made.ensures }.push(inside);
        first = first.or(Some(at + places(words, clause).first().copied().unwrap_or(words.len())));
        at = close + 1;
    }
}

/// The constants of a file: name and place.
pub fn constants(text: &str) -> Vec<(String, Range<usize>)> {
    let code = blanked(text);
    let item = |at: usize| {
        let name = word_at(&code, after_blanks(&code, at + 5)).to_string();
        let mut end = at;
        while *code.get(end)? != b';' {
            end = if matches!(code[end], b'(' | b'[' | b'{') { closing(&code, end)? } else { end } + 1;
        }
        (!name.is_empty() && name != "fn").then_some((name, at..end + 1))
    };
    places(&code, "const").into_iter().filter_map(item).collect()
}

/// The modules that a file declares, and whether each is public.
pub fn modules(text: &str) -> Vec<(String, bool)> {
    let code = String::from_utf8(blanked(text)).unwrap_or_default();
    let module = |line: &str| {
        let (declared, _) = line.trim().split_once(';')?;
        match declared.strip_prefix("pub mod ") {
            Some(name) => Some((name.trim().to_string(), true)),
            None => Some((declared.strip_prefix("mod ")?.trim().to_string(), false)),
        }
    };
    code.lines().filter_map(module).collect()
}

/// What a file imports of the crates' specs/: `ghost use Rattle.CRATE.specs.MODULE.{..}`.
pub fn imports(text: &str) -> Vec<Import> {
    let code = String::from_utf8(blanked(text)).unwrap_or_default();
    let mut found = Vec::new();
    for line in code.split("ghost use Rattle.").skip(1) {
        let Some((path, names)) = line.split(';').next().and_then(|line| line.split_once(".{")) else {
            continue;
        };
        let Some((krate, module)) = path.split_once(".specs.") else { continue };
        for name in names.trim_end().trim_end_matches('}').split(',').map(str::trim).filter(|n| !n.is_empty())
        {
            let (name, local) = name.split_once(" as ").unwrap_or((name, name));
            found.push(Import {
                local: local.trim().to_string(),
                name: name.trim().to_string(),
                krate: krate.to_string(),
                module: module.replace('.', "/"),
            });
        }
    }
    found
}

#[cfg(test)]
mod tests {
    use super::*;

    const FILE: &str = "// A file.\npub mod inner; // fn no()\nmod own;\nghost use Rattle.a.specs.B.{x, y as z};\n\
        ghost use Rattle.c.specs.D.{w};\nconst N: [u8; 2] = *b\";{\";\n\n// Adds\n// one.\npub fn add<'a>(s: &'a mut [u8], mut k: u8, t: &[u8]) -> [u8; 2]\n    \
        requires small { record { a = k } ≡ z }\n    ensures { result ≡ x }\n{\n    if k == '{' { }\n}\n\nfn own() {\n}\n\n\
        // For C.\n#[unsafe(no_mangle)]\npub extern \"C\" fn usi(x: &mut u64) -> u32 { 0 }\n";

    #[test]
    fn scans_a_file() {
        let found = functions(FILE);
        assert_eq!(found.iter().map(|f| f.name.as_str()).collect::<Vec<_>>(), ["add", "own", "usi"]);
        let add = &found[0];
        assert_eq!((add.public, add.exported, add.answers), (true, false, true));
        assert_eq!(add.comment, "Adds one.");
        assert_eq!(add.signature, "pub fn add<'a>(s: &'a mut [u8], mut k: u8, t: &[u8]) -> [u8; 2]");
        assert_eq!(add.lent, ["s"]);
        assert_eq!(add.requires, ["record { a = k } ≡ z"]);
        assert_eq!(add.ensures, ["result ≡ x"]);
        assert!(
            FILE[add.contract.clone()].starts_with("requires") && FILE[add.contract.clone()].ends_with('}')
        );
        assert!(FILE[add.body.clone()].contains("if k"));
        assert!(!add.starred && functions("fn f() ensures* { emp } { }")[0].starred);
        assert_eq!((found[1].public, found[1].answers, found[1].ensures.len()), (false, false, 0));
        assert_eq!((found[2].exported, found[2].lent.as_slice()), (true, ["x".to_string()].as_slice()));
        assert_eq!(found[2].comment, "For C.");
    }

    #[test]
    fn scans_modules_constants_and_imports() {
        assert_eq!(modules(FILE), [("inner".to_string(), true), ("own".to_string(), false)]);
        let constants = constants(FILE);
        assert_eq!(constants[0].0, "N");
        assert!(FILE[constants[0].1.clone()].ends_with("\";"));
        let imports = imports(FILE);
        let flat: Vec<_> =
            imports.iter().map(|i| (&i.local[..], &i.name[..], &i.krate[..], &i.module[..])).collect();
        assert_eq!(flat, [("x", "x", "a", "B"), ("z", "y", "a", "B"), ("w", "w", "c", "D")]);
    }
}
