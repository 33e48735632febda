//! A must-fail edit: crates/CRATE/must-fail/LABEL.edit, whose first line says what it rules out: `# rules out: SUBJECT, SUBJECT: WORDS`.

use crate::rattle;
use std::collections::BTreeMap;

/// One replacement in a file of the crate.
#[derive(Clone, Debug, Default, PartialEq)]
pub struct Change {
    pub file: String,
    pub old: String,
    pub new: String,
}

/// What an edit changes.
#[derive(Clone, Copy, Debug, PartialEq, Eq, PartialOrd, Ord)]
pub enum Kind {
    Code,
    Constant,
    Specification,
    Proof,
}

#[derive(Clone, Debug, Default, PartialEq)]
pub struct Edit {
    pub krate: String,
    pub label: String,
    /// the functions, definitions, imposters and rules that it is about; none if the line is not there
    pub subjects: Vec<String>,
    /// the wrong answer, in words
    pub words: String,
    pub changes: Vec<Change>,
}

impl Edit {
    pub fn parse(krate: &str, label: &str, text: &str) -> Edit {
        let mut edit = Edit { krate: krate.to_string(), label: label.to_string(), ..Edit::default() };
        let (mut file, mut old) = ("", "");
        for line in text.lines() {
            if let Some((subjects, words)) =
                line.strip_prefix("# rules out: ").and_then(|l| l.split_once(": "))
            {
                edit.subjects = subjects.split(", ").map(str::to_string).collect();
                edit.words = words.trim().to_string();
            } else if let Some(name) = line.strip_prefix("file: ") {
                file = name;
            } else if let Some(text) = line.strip_prefix("old: ") {
                old = text;
            } else if let Some(text) = line.strip_prefix("new:") {
                let new = text.strip_prefix(' ').unwrap_or(text);
                edit.changes.push(Change {
                    file: file.to_string(),
                    old: old.to_string(),
                    new: new.to_string(),
                });
            }
        }
        edit
    }

    pub fn name(&self) -> String {
        format!("{}/{}", self.krate, self.label)
    }

    /// The edited files with their new texts; none where an old text does not stand in its file once, or where nothing is changed.
    pub fn edited(&self, text_of: &dyn Fn(&str) -> String) -> Option<BTreeMap<String, String>> {
        let mut texts = BTreeMap::new();
        for change in &self.changes {
            let text = texts.entry(change.file.clone()).or_insert_with(|| text_of(&change.file));
            *text = change.applied(text)?;
        }
        (!texts.is_empty()).then_some(texts)
    }
}

impl Change {
    /// The file's text with the change; none unless the old text stands there once.
    pub fn applied(&self, text: &str) -> Option<String> {
        let mut places = text.match_indices(&self.old);
        let (at, _) = places.next()?;
        let once = places.next().is_none() && !self.old.is_empty();
        once.then(|| format!("{}{}{}", &text[..at], self.new, &text[at + self.old.len()..]))
    }

    /// What is changed, and its name: a function, a constant, a definition or a file.
    pub fn place(&self, text: &str) -> (Kind, String) {
        let shared = self.old.bytes().zip(self.new.bytes()).take_while(|(a, b)| a == b).count();
        let at = text.find(&self.old).unwrap_or_default() + shared.min(self.old.len().saturating_sub(1));
        if self.file.starts_with("proofs/") {
            return (Kind::Proof, self.file.clone());
        }
        if self.file.starts_with("specs/") {
            return (Kind::Specification, definition_at(text, at).unwrap_or(&self.file).to_string());
        }
        let functions = rattle::functions(text);
        if let Some(f) = functions.iter().find(|f| f.contract.contains(&at)) {
            return (Kind::Specification, f.name.clone());
        }
        if let Some(f) = functions.iter().find(|f| f.body.contains(&at)) {
            return (Kind::Code, f.name.clone());
        }
        match rattle::constants(text).into_iter().find(|(_, range)| range.contains(&at)) {
            Some((name, _)) => (Kind::Constant, name),
            None => (Kind::Code, self.file.clone()),
        }
    }
}

/// The definition of an antt file that a place lies in: its signature is the last one above.
fn definition_at(text: &str, at: usize) -> Option<&str> {
    let line_end = at + text[at..].find('\n').unwrap_or(text.len() - at);
    let name = |line: &'_ str| {
        let (_, rest) = line.split_once("pub ")?;
        let (name, _) = rest.split_once(" : ")?;
        Some(name.len())
    };
    let line =
        text[..line_end].lines().rev().find(|line| !line.trim().starts_with("--") && name(line).is_some())?;
    line.split_once("pub ")?.1.split_once(" : ")?.0.split_whitespace().last()
}

/// The words of a text.
fn words(text: &str) -> Vec<&str> {
    text.split_whitespace().collect()
}

/// So many words are shown on each side of a difference.
const AROUND: usize = 3;

/// The old and the new text of a change, cut to the words around their difference.
pub fn shortened(change: &Change) -> (String, String) {
    let (old, new) = (words(&change.old), words(&change.new));
    let least = old.len().min(new.len());
    let before = (0..least).take_while(|i| old[*i] == new[*i]).count();
    let after = (0..least - before).take_while(|i| old[old.len() - 1 - i] == new[new.len() - 1 - i]).count();
    let cut = |all: &[&str]| {
        let start = before.saturating_sub(AROUND);
        let end = (all.len() - after + AROUND).min(all.len());
        let dots = |there: bool| if there { "…" } else { "" };
        let shown = all[start..end].join(" ");
        [dots(start > 0), &shown, dots(end < all.len())]
            .iter()
            .filter(|s| !s.is_empty())
            .copied()
            .collect::<Vec<_>>()
            .join(" ")
    };
    (cut(&old), cut(&new))
}

#[cfg(test)]
mod tests {
    use super::*;

    const TEXT: &str = "const N: u8 = 5;\nfn f(x: u8) -> u8\n    ensures { result ≡ x }\n{\n    x + 1\n}\n";

    fn change(file: &str, old: &str, new: &str) -> Change {
        Change { file: file.to_string(), old: old.to_string(), new: new.to_string() }
    }

    #[test]
    fn parses_an_edit() {
        let text = "# rules out: k::f, E1: one too far: always\nfile: src/lib.rt\nold:     x + 1\nnew:     x + 2\nold: y\nnew:\n";
        let edit = Edit::parse("k", "far", text);
        assert_eq!(edit.subjects, ["k::f", "E1"]);
        assert_eq!(edit.words, "one too far: always");
        assert_eq!(
            edit.changes,
            [change("src/lib.rt", "    x + 1", "    x + 2"), change("src/lib.rt", "y", "")]
        );
        assert!(Edit::parse("k", "l", "# a comment\n").subjects.is_empty());
    }

    #[test]
    fn tells_code_from_specification() {
        let place = |old: &str, new: &str| change("src/lib.rt", old, new).place(TEXT);
        assert_eq!(place("    x + 1", "    x + 2"), (Kind::Code, "f".to_string()));
        assert_eq!(place("result ≡ x }", "result ≡ y }"), (Kind::Specification, "f".to_string()));
        assert_eq!(place("u8 = 5", "u8 = 6"), (Kind::Constant, "N".to_string()));
        let specs = "abbrev pub g : ℕ\n-- pub h : x\ng = 1\n";
        assert_eq!(
            change("specs/A.antt", "g = 1", "g = 2").place(specs),
            (Kind::Specification, "g".to_string())
        );
        assert_eq!(change("proofs/A.antt", "g = 1", "g = 2").place(specs).0, Kind::Proof);
    }

    #[test]
    fn makes_all_changes_of_an_edit() {
        let text = "file: src/lib.rt\nold: x + 1\nnew: x + 2\nold: = 5\nnew: = 6\n";
        let edited = Edit::parse("k", "l", text).edited(&|_| TEXT.to_string()).unwrap();
        assert!(edited["src/lib.rt"].contains("x + 2") && edited["src/lib.rt"].contains("= 6"));
        assert!(Edit::parse("k", "l", "").edited(&|_| TEXT.to_string()).is_none());
        let twice = Edit::parse("k", "l", "file: src/lib.rt\nold: x\nnew: y\n");
        assert!(twice.edited(&|_| TEXT.to_string()).is_none());
    }

    #[test]
    fn applies_where_the_text_stands_once() {
        assert_eq!(change("", "x + 1", "x").applied(TEXT).unwrap().lines().nth(4), Some("    x"));
        assert!(change("", "x", "y").applied(TEXT).is_none());
        assert!(change("", "z", "y").applied(TEXT).is_none());
    }

    #[test]
    fn shortens_to_the_difference() {
        let c = change("", "a b c d e f g h i", "a b c d X f g h i");
        assert_eq!(shortened(&c), ("… b c d e f g h …".to_string(), "… b c d X f g h …".to_string()));
        assert_eq!(shortened(&change("", "  a", "")), ("a".to_string(), "".to_string()));
    }
}
