//! One word, one meaning: the public names of the crates' specs/, and the glossary in docs/ARCHITECTURE.md ("Words").

use crate::tables::cells;
use std::collections::{BTreeMap, BTreeSet};

/// The public names that a file of specs/ defines: definitions, records, datatypes; the fields of a record are not among them.
pub fn defined(text: &str) -> Vec<String> {
    let mut names = Vec::new();
    let mut in_record = false;
    for line in text.lines().filter(|line| !line.trim_start().starts_with("--")) {
        let flush = line.starts_with(|c: char| !c.is_whitespace());
        let mut words = line.split_whitespace().skip_while(|word| matches!(*word, "abbrev" | "unfoldable"));
        let public = words.next() == Some("pub");
        let kind = words.next().unwrap_or_default();
        let record = public && kind == "record";
        if public && kind != "mod" && (record || !in_record || flush) {
            let name =
                if matches!(kind, "record" | "data") { words.next().unwrap_or_default() } else { kind };
            names.push(name.to_string());
        }
        if flush {
            in_record = false;
        }
        in_record = in_record || record;
    }
    names
}

/// The public types that a source declares, which specs/ name as they do their own.
pub fn declared(source: &str) -> Vec<String> {
    let name = |line: &str| {
        let rest = line.strip_prefix("pub enum ").or(line.strip_prefix("pub struct "))?;
        Some(rest.chars().take_while(|c| c.is_alphanumeric()).collect())
    };
    source.lines().filter_map(name).collect()
}

/// The words of the glossary, each with its meaning.
pub fn glossary(architecture: &str) -> BTreeMap<String, String> {
    let rows = architecture.lines().skip_while(|line| !line.starts_with("| word |")).skip(2);
    rows.map_while(cells)
        .filter(|row| row.len() == 2)
        .flat_map(|row| {
            let words: Vec<&str> = row[0].split(", ").map(|word| word.trim_matches('`')).collect();
            words.into_iter().map(move |word| (word.to_string(), row[1].to_string())).collect::<Vec<_>>()
        })
        .collect()
}

/// What is wrong: a name that two crates define and whose one meaning the glossary does not say, and a word of the glossary that fewer have.
pub fn faults(names: &[(String, String)], glossary: &BTreeMap<String, String>) -> Vec<String> {
    let mut crates: BTreeMap<&str, BTreeSet<&str>> = BTreeMap::new();
    for (krate, name) in names {
        crates.entry(name).or_default().insert(krate);
    }
    let shared = crates.iter().filter(|(_, among)| among.len() > 1);
    let unsaid = shared.filter(|(name, _)| !glossary.contains_key(**name)).map(|(name, among)| {
        let among = among.iter().copied().collect::<Vec<_>>().join(", ");
        format!("{name}: public in {among}; give each its own name, or the glossary the one meaning that it has in all")
    });
    let idle = glossary.keys().filter(|word| crates.get(word.as_str()).map_or(0, BTreeSet::len) < 2);
    unsaid.chain(idle.map(|word| format!("{word}: in the glossary, though no two crates share it"))).collect()
}

#[cfg(test)]
mod tests {
    use super::*;

    const SPECS: &str = "-- pub not : a comment\npub mod Files\nabbrev pub one : A\none = 1\n\npub record Two : Type 0 where\n  pub field : A\n\n\
        pub data Three : Type 0 where\n  case : Three\n\nmodule _ (x : A) where\n  unfoldable pub four : A\n\n  pub record Five : Type 0 where\n    pub other : A\n\n\
        unfoldable mutual\n  pub six : A\n";

    #[test]
    fn reads_the_names_that_specs_define_and_sources_declare() {
        assert_eq!(defined(SPECS), ["one", "Two", "Three", "four", "Five", "six"]);
        assert_eq!(
            declared("pub enum Found {\nstruct Own {\npub struct Block(pub u64);\n"),
            ["Found", "Block"]
        );
    }

    #[test]
    fn a_name_of_two_crates_has_its_one_meaning_in_the_glossary() {
        let words = glossary("## Words\n| word | meaning |\n|---|---|\n| `place`, `Seven` | where it stands |\n\n| `late` | no |\n");
        assert_eq!(words.keys().collect::<Vec<_>>(), ["Seven", "place"]);
        let name = |krate: &str, name: &str| (krate.to_string(), name.to_string());
        let names =
            [name("a", "place"), name("b", "place"), name("a", "part"), name("c", "part"), name("c", "part")];
        assert_eq!(
            faults(&names, &words),
            [
                "part: public in a, c; give each its own name, or the glossary the one meaning that it has in all",
                "Seven: in the glossary, though no two crates share it"
            ]
        );
        assert_eq!(faults(&names[..2], &glossary("")).len(), 1);
    }
}
