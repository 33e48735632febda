//! The crates, and what their sources declare.

use crate::{files, rattle, read, tables};
use std::collections::BTreeMap;
use std::path::{Path, PathBuf};

/// Whether a name stands in a text by itself, and not as a part of a longer one.
pub fn is_word(text: &str, name: &str) -> bool {
    let part = |c: char| c.is_alphanumeric() || matches!(c, '_' | '-');
    text.match_indices(name).any(|(at, _)| {
        !text[..at].chars().next_back().is_some_and(part)
            && !text[at + name.len()..].chars().next().is_some_and(part)
    })
}

/// The crates that crates.txt lists, in its order, each with its source in one text.
pub struct Crates {
    pub root: PathBuf,
    pub names: Vec<String>,
    sources: BTreeMap<String, String>,
}

impl Crates {
    pub fn read(root: &Path) -> Crates {
        let names = tables::crates(&read(root.join("crates.txt")));
        let source = |name: &String| {
            let paths = files(&root.join("crates").join(name).join("src"), &["rt"]);
            (name.clone(), paths.iter().map(read).collect::<String>())
        };
        let sources = names.iter().map(source).collect();
        Crates { root: root.to_path_buf(), names, sources }
    }

    pub fn has(&self, name: &str) -> bool {
        self.sources.contains_key(name)
    }

    pub fn path(&self, name: &str) -> PathBuf {
        self.root.join("crates").join(name)
    }

    /// Whether a crate's source declares a function, type, constant or module of that name.
    pub fn source_has(&self, name: &str, item: &str) -> bool {
        ["fn", "struct", "enum", "const", "mod"].iter().any(|kind| self.source_has_a(kind, name, item))
    }

    /// The same of one kind of thing.
    pub fn source_has_a(&self, kind: &str, name: &str, item: &str) -> bool {
        self.sources.get(name).is_some_and(|source| is_word(source, &format!("{kind} {item}")))
    }

    /// A function of that name stands there that says what it ensures, so that its proof is one.
    pub fn proves(&self, name: &str, function: &str) -> bool {
        let said = |source: &String| {
            rattle::functions(source).iter().any(|made| made.name == function && !made.ensures.is_empty())
        };
        self.sources.get(name).is_some_and(said)
    }

    pub fn any_has(&self, item: &str) -> bool {
        self.names.iter().any(|name| self.source_has(name, item))
    }
}

#[cfg(test)]
mod tests {
    use super::*;

    #[test]
    fn a_word_stands_by_itself() {
        assert!(is_word("pub fn find(image", "fn find"));
        assert!(!is_word("pub fn find_named(image", "fn find"));
        assert!(!is_word("place-none-two", "place-none"));
        assert!(is_word("pub place-none : A", "place-none"));
    }
}
