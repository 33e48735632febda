//! Prints the C prototypes of the functions that Rattle files export, as the compiler passes them,
//! so that a C compiler can hold the header to them.
//!
//! usage: prototypes FILE.rt...

use std::{env, fs, process};

/// A Rattle number type in C.
fn number(kind: &str) -> Option<&'static str> {
    Some(match kind {
        "u8" => "uint8_t",
        "u16" => "uint16_t",
        "u32" => "uint32_t",
        "u64" => "uint64_t",
        "usize" => "size_t",
        _ => return None,
    })
}

/// The C parameters of one Rattle parameter: a slice passes as a pointer and then its length.
fn parameters(name: &str, kind: &str) -> Option<Vec<String>> {
    let Some(behind) = kind.strip_prefix('&') else {
        return Some(vec![format!("{} {name}", number(kind)?)]);
    };
    let (constness, inner) = match behind.trim().strip_prefix("mut ") {
        Some(inner) => ("", inner.trim()),
        None => ("const ", behind.trim()),
    };
    match inner.strip_prefix('[').and_then(|s| s.strip_suffix(']')) {
        Some(element) => {
            let pointer = format!("{constness}{} *{name}", number(element)?);
            Some(vec![pointer, format!("size_t {name}_len")])
        }
        None => Some(vec![format!("{constness}{} *{name}", number(inner)?)]),
    }
}

/// The prototype of the function whose text, from its name on, is `text`.
fn prototype(text: &str) -> Option<String> {
    let (name, rest) = text.split_once('(')?;
    let (list, rest) = rest.split_once(')')?;
    let mut passed = Vec::new();
    for one in list.split(',').filter(|one| !one.trim().is_empty()) {
        let (name, kind) = one.split_once(':')?;
        passed.extend(parameters(name.trim(), kind.trim())?);
    }
    let result = match rest.trim_start().strip_prefix("->") {
        Some(kind) => number(kind.split_whitespace().next()?)?,
        None => "void",
    };
    Some(format!("{result} {}({});", name.trim(), passed.join(", ")))
}

fn main() {
    println!("#include <stddef.h>\n#include <stdint.h>");
    let mark = "pub extern \"C\" fn ";
    for path in env::args().skip(1) {
        let source = fs::read_to_string(&path).unwrap_or_else(|e| {
            eprintln!("{path}: {e}");
            process::exit(1)
        });
        let code: String =
            source.lines().map(|line| line.split("//").next().unwrap_or("")).collect::<Vec<_>>().join("\n");
        for text in code.split(mark).skip(1) {
            let Some(line) = prototype(text) else {
                eprintln!("{path}: cannot read the function {}", text.lines().next().unwrap_or(""));
                process::exit(1)
            };
            println!("{line}");
        }
    }
}
