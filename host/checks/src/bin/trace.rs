//! Holds docs/TRACE.md and the crates to each other: a comment that quotes a rule, as `-- G2: The first three groups ..`,
//! names a rule that stands there and begins with words of it; and what a row names (definition, function, proof, edit,
//! test) is there. A row with an empty cell is an error.
//!
//! A cell names things in segments that `;` parts: a crate's name, then `File: name, ..` of its specs or proofs, proofs of
//! functions (`read/Proof`, `module/read/Proof`), edits behind `must-fail`; or `crate::function`; or a path of the repository, with names behind `crates/..:`.
//! The tables behind the rules, from `# Forms` on, name things in the same way.
//!
//! usage, from the repository's root: trace

use checks::crates::{is_word, Crates};
use checks::tables::{cells, is_number, rules};
use checks::{files, read};
use std::collections::HashMap;
use std::path::Path;
use std::{fs, process};

/// So many words of a quotation must stand in the rule, one after the other.
const WORDS: usize = 3;

/// The citations of a comment line, `X9: words`: each rule's number with the words after it.
fn citations(line: &str) -> Vec<(&str, Vec<&str>)> {
    let line = line.trim_start();
    if !line.starts_with("--") && !line.starts_with("//") {
        return Vec::new();
    }
    let words: Vec<&str> = line.split_whitespace().collect();
    let starts = words.iter().enumerate().filter(|(_, word)| word.strip_suffix(':').is_some_and(is_number));
    starts
        .map(|(at, word)| (&word[..word.len() - 1], words[at + 1..].iter().take(WORDS).copied().collect()))
        .collect()
}

fn quotes(rule: &str, words: &[&str]) -> bool {
    let words: Vec<&str> = words.iter().take_while(|word| !word.starts_with("..")).copied().collect();
    rule.contains(words.join(" ").trim_end_matches(['.', ';', ':', ',']))
}

/// The cells of each row of the tables, but of their heads.
fn rows(tables: &str) -> impl Iterator<Item = Vec<&str>> {
    tables.lines().filter_map(cells).filter(|row| row[0] != "No.")
}

/// What the rows name and is not there, and rules with an empty cell.
fn missing(rules: &str, tables: &str, crates: &Crates) -> Vec<String> {
    let mut missing = Vec::new();
    for cells in rows(rules) {
        if cells.len() != 5 || cells.iter().any(|cell| cell.is_empty()) {
            missing.push(format!("{}: a row has five cells, none empty", cells[0]));
        }
        missing.extend(absent(&cells, 2, crates));
    }
    rows(tables).for_each(|cells| missing.extend(absent(&cells, 1, crates)));
    missing
}

/// What the cells from one on name and is not there.
fn absent(cells: &[&str], from: usize, crates: &Crates) -> Vec<String> {
    let mut absent = Vec::new();
    for cell in &cells[from.min(cells.len())..] {
        let mut place = Place::new(crates);
        let words = cell.split_inclusive(' ').flat_map(|word| place.absent(word.trim_end()));
        absent.extend(words.map(|what| format!("{}: {what}", cells[0])));
    }
    absent
}

/// Where the next name of a cell is looked for.
struct Place<'a> {
    crates: &'a Crates,
    name: Option<String>,
    file: Option<String>,
    edits: bool,
}

impl Place<'_> {
    fn new(crates: &Crates) -> Place<'_> {
        Place { crates, name: None, file: None, edits: false }
    }

    /// What the word names and is not there.
    fn absent(&mut self, word: &str) -> Option<String> {
        let bare = word.trim_matches(['(', ')', ',', ';', '"']);
        let found = match bare.strip_prefix('`').and_then(|name| name.strip_suffix('`')) {
            Some(name) => self.named(name),
            None => self.plain(bare),
        };
        if word.ends_with(';') {
            (self.file, self.edits) = (None, false);
        }
        (!found).then(|| format!("{bare} is not there"))
    }

    fn named(&mut self, name: &str) -> bool {
        let crates = self.crates;
        if let Some((of, item)) = name.split_once("::") {
            self.name = Some(of.to_string());
            return item.split("::").all(|part| crates.source_has(of, part));
        }
        if self.file.as_ref().is_some_and(|text| is_word(text, name)) {
            return true;
        }
        if crates.has(name) {
            (self.name, self.file, self.edits) = (Some(name.to_string()), None, false);
            return true;
        }
        if name.contains('/') {
            return crates.root.join(name).exists();
        }
        match (&self.name, &self.file) {
            (Some(of), _) if self.edits => crates.path(of).join(format!("must-fail/{name}.edit")).exists(),
            _ if name.starts_with("usi_") => crates.any_has(name),
            (Some(of), None) => crates.source_has(of, name),
            (None, None) => crates.any_has(name),
            (_, Some(_)) => false,
        }
    }

    fn plain(&mut self, word: &str) -> bool {
        if let Some(path) = word.strip_suffix(':').filter(|path| path.starts_with("crates/")) {
            self.file = fs::read_to_string(self.crates.root.join(path)).ok();
            return self.file.is_some();
        }
        let Some(of) = &self.name else {
            return !word.starts_with("tests/") || self.crates.root.join(word).exists();
        };
        let folder = self.crates.path(of);
        if word == "must-fail" {
            (self.file, self.edits) = (None, true);
        } else if word.starts_with("tests/") {
            return self.crates.root.join(word).exists();
        } else if let Some(place) = word.strip_suffix("/Proof") {
            let (modules, function) = place.rsplit_once('/').unwrap_or(("", place));
            let module = |name: &str| self.crates.source_has_a("mod", of, name);
            return self.crates.proves(of, function) && modules.split_terminator('/').all(module);
        } else if let Some(name) = word.strip_suffix(':').filter(|name| name.starts_with(char::is_uppercase))
        {
            let texts = ["specs", "proofs"].map(|layer| folder.join(format!("{layer}/{name}.antt")));
            let texts: Vec<String> = texts.iter().filter_map(|path| fs::read_to_string(path).ok()).collect();
            (self.file, self.edits) = (Some(texts.concat()), false);
            return !texts.is_empty();
        }
        true
    }
}

fn main() {
    let table = read("docs/TRACE.md");
    let (table, tables) = table.split_once("\n# Forms").expect("the table of forms");
    let rules: HashMap<&str, &str> = rules(table).into_iter().collect();
    let (mut cited, mut wrong) = (0, 0);
    for path in files("crates", &["rt", "antt"]) {
        let text = read(&path);
        for (at, line) in text.lines().enumerate() {
            for (number, words) in citations(line) {
                cited += 1;
                if !rules.get(number).is_some_and(|rule| quotes(rule, &words)) {
                    println!("{}:{}: {number} does not say: {}", path.display(), at + 1, words.join(" "));
                    wrong += 1;
                }
            }
        }
    }
    println!("{cited} citations of {} rules, {wrong} wrong", rules.len());
    let missing = missing(table, tables, &Crates::read(Path::new(".")));
    missing.iter().for_each(|line| println!("docs/TRACE.md: {line}"));
    println!("{} names or cells of docs/TRACE.md are missing", missing.len());
    process::exit(if wrong == 0 && cited > 0 && missing.is_empty() { 0 } else { 1 });
}

#[cfg(test)]
mod tests {
    use super::*;

    #[test]
    fn holds_citations_to_the_table() {
        let rules: HashMap<&str, &str> =
            rules("| No. | Sentence |\n| G2 | The first three groups are stored reversed. | a | b | c |\n")
                .into_iter()
                .collect();
        assert_eq!(rules.len(), 1);
        assert!(quotes(rules["G2"], &["The", "first", "three"]));
        assert!(quotes(rules["G2"], &["stored", "reversed."]));
        assert!(!quotes(rules["G2"], &["The", "first", "two"]));
        assert_eq!(
            citations("-- Q1: A disk has. D1: first usable 34."),
            [("Q1", vec!["A", "disk", "has."]), ("D1", vec!["first", "usable", "34."])]
        );
        assert!(citations("-- Note: that").is_empty());
        assert!(citations("G2: no comment").is_empty());
    }

    #[test]
    fn holds_rows_to_what_is_there() {
        let crates = Crates::read(Path::new("../.."));
        let row = |cell: &str| {
            missing(&format!("| G2 | The first. | {cell} | `octets::copy` | none |"), "", &crates)
        };
        for good in [
            "`octets` Rows: `refusal`, `row`; `crc_lanes` Crc: `crc32`",
            "`octets` same/Proof; must-fail `rest_from_start`",
            "`fmd_parse` rows/first_cbfs/Proof",
            "`octets::load`, `store`; in C `usi_crc32`",
        ] {
            assert_eq!(row(good), [""; 0], "{good}");
        }
        for bad in [
            "`octets` Rows: `refuser`",
            "`octets` Row: `refusal`",
            "`octets` copied/Proof",
            "`octets` rows/same/Proof",
            "`samples` steps/Proof",
            "`fmd_parse` rows/Proof",
            "`octets` must-fail `low_half`",
            "`octets::load128`",
            "`octet` Rows: `refusal`",
            "in C `usi_crc64`",
            "`docs/TRACES.md`",
            "tests/99-nothing",
            "",
        ] {
            assert!(!row(bad).is_empty(), "{bad}");
        }
        let other = |cell: &str| missing("", &format!("| W6 | a place | {cell} |"), &crates);
        assert_eq!(other("crates/octets/src/lib.rt: `copy`"), [""; 0]);
        assert!(!other("crates/octets/src/lib.rt: `copied`").is_empty());
    }
}
