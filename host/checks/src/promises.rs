//! The generated section of docs/PROMISES.md: the contract of every callable function, as its source has it, by crate.

use crate::contract::{named, Definitions};
use crate::face::Callable;
use std::collections::{BTreeMap, BTreeSet};

const BEGIN: &str = "<!-- contracts: begin (`contracts --write` writes this section) -->";
const END: &str = "<!-- contracts: end -->";

/// The section between the two marks.
pub fn section(callables: &[Callable], definitions: &Definitions) -> String {
    let mut text = String::new();
    let mut rest = callables;
    while let Some(first) = rest.first() {
        let count = rest.iter().take_while(|c| c.krate == first.krate).count();
        text += &of_crate(&rest[..count], definitions);
        rest = &rest[count..];
    }
    text
}

fn of_crate(callables: &[Callable], definitions: &Definitions) -> String {
    let mut text = format!("\n### `{}`\n```\n", callables[0].krate);
    let blocks: Vec<String> = callables.iter().map(contract).collect();
    text += &blocks.join("\n");
    text += "```\nDefined in";
    for (file, names) in sources(callables, definitions) {
        text += &format!("\n- `{file}`: {}", names.into_iter().collect::<Vec<_>>().join(", "));
    }
    text + "\n"
}

/// A function's comment, path, signature and `ensures`.
fn contract(callable: &Callable) -> String {
    let f = &callable.function;
    let mut text =
        format!("// {}{}{}\n", callable.path, if f.comment.is_empty() { "" } else { ": " }, f.comment);
    text += &one_line(&f.signature);
    for ensures in &f.ensures {
        text += &format!("\n    ensures {{ {} }}", one_line(ensures));
    }
    text + "\n"
}

fn one_line(text: &str) -> String {
    let joined = text.split_whitespace().collect::<Vec<_>>().join(" ");
    joined.replace("( ", "(").replace(", )", ")")
}

/// The files of specs/ that the contracts name, with the names; a name that is changed on import stands with both.
fn sources(callables: &[Callable], definitions: &Definitions) -> BTreeMap<String, BTreeSet<String>> {
    let mut found: BTreeMap<String, BTreeSet<String>> = BTreeMap::new();
    for callable in callables {
        for import in callable.function.ensures.iter().flat_map(|e| named(callable, definitions, e)) {
            let name = match import.local == import.name {
                true => format!("`{}`", import.name),
                false => format!("`{}` (here `{}`)", import.name, import.local),
            };
            found
                .entry(format!("crates/{}/specs/{}.antt", import.krate, import.module))
                .or_default()
                .insert(name);
        }
    }
    found
}

/// The document's text before the section, the section, and the text after it.
pub fn parts(document: &str) -> Option<(&str, &str, &str)> {
    let (before, rest) = document.split_once(BEGIN)?;
    let (section, after) = rest.split_once(END)?;
    Some((before, section.strip_prefix('\n')?, after))
}

/// The document with this section.
pub fn with_section(document: &str, section: &str) -> Option<String> {
    let (before, _, after) = parts(document)?;
    Some(format!("{before}{BEGIN}\n{section}{END}{after}"))
}

#[cfg(test)]
mod tests {
    use super::*;
    use crate::face;

    #[test]
    fn prints_contracts_and_their_definitions() {
        let text = "ghost use Rattle.k.specs.Calls.{next as after};\n// Adds one.\npub fn f(\n    x: u8,\n) -> u8\n    ensures { result\n        ≡ after x }\n{ x }\n";
        let callables = face::of_crate("k", &|path| (path == "src/lib.rt").then(|| text.to_string()));
        let mut definitions = Definitions::default();
        definitions.add("k", "Calls", "abbrev pub next : ℕ → ℕ\n");
        let printed = section(&callables, &definitions);
        assert_eq!(
            printed,
            "\n### `k`\n```\n// k::f: Adds one.\npub fn f(x: u8) -> u8\n    ensures { result ≡ after x }\n```\nDefined in\n- `crates/k/specs/Calls.antt`: `next` (here `after`)\n"
        );
        let document = with_section(&format!("a\n{BEGIN}\nold\n{END}\nb\n"), &printed).unwrap();
        assert_eq!(parts(&document).unwrap(), ("a\n", printed.as_str(), "\nb\n"));
        assert!(parts("a").is_none());
    }
}
