//! The must-fail edits together: the table of docs/EDITS.md, and what they must cover.

use crate::edit::{shortened, Edit, Kind};
use std::collections::BTreeMap;

/// The imposters, as rule P2 of docs/TRACE.md names them.
pub const IMPOSTERS: [&str; 5] = [
    "refusing all calls",
    "a constant reply",
    "no writes",
    "doing only the first add",
    "made-up free counts",
];

/// What stands in a row where no log tells the first error.
pub const UNTRIED: &str = "not tried yet";

/// An edit with what its row says.
pub struct Row {
    pub edit: Edit,
    pub kind: Kind,
    /// what is changed, and how
    pub change: String,
    /// the fact of the log's first error
    pub fact: String,
}

impl Row {
    /// `text_of` gives a file of the edit's crate.
    pub fn new(edit: Edit, fact: String, text_of: &dyn Fn(&str) -> String) -> Row {
        let places: Vec<_> = edit.changes.iter().map(|c| c.place(&text_of(&c.file))).collect();
        let one = |(change, (kind, name)): (_, &(Kind, String))| {
            let (old, new) = shortened(change);
            let new = if new.is_empty() { "nothing".to_string() } else { format!("`{new}`") };
            format!("{} `{name}`: `{old}` → {new}", word(*kind))
        };
        let (proof, other): (Vec<_>, Vec<_>) =
            edit.changes.iter().zip(&places).partition(|c| c.1 .0 == Kind::Proof);
        let mut change = other.into_iter().map(one).collect::<Vec<_>>().join("; ");
        change += if proof.is_empty() { "" } else { "; the proof goes along" };
        let kind = places.iter().map(|place| place.0).min().unwrap_or(Kind::Proof);
        Row { edit, kind, change, fact }
    }

    fn line(&self) -> String {
        let subjects: Vec<String> = self.edit.subjects.iter().map(|s| subject(s)).collect();
        let ruled = format!("{}: {}", subjects.join(", "), self.edit.words);
        let cells = [format!("`{}`", self.edit.label), ruled, self.change.clone(), self.fact.clone()];
        format!("| {} |\n", cells.map(|cell| cell.replace('|', "\\|")).join(" | "))
    }
}

fn word(kind: Kind) -> &'static str {
    match kind {
        Kind::Code => "code",
        Kind::Constant => "constant",
        Kind::Specification => "specification",
        Kind::Proof => "proof",
    }
}

fn subject(text: &str) -> String {
    if text.contains("::") {
        format!("`{text}`")
    } else {
        text.to_string()
    }
}

/// What must be covered: the callable functions, by two edits each; imposters and rules, by one each.
pub fn wanted(callables: &[String], easy: &[&str]) -> Vec<(String, usize)> {
    let twice = callables.iter().map(|path| (path.clone(), 2));
    let once = IMPOSTERS.iter().chain(easy).map(|name| (name.to_string(), 1));
    twice.chain(once).collect()
}

/// The edits of code or of a constant that name a subject.
fn naming<'a>(rows: &'a [Row], subject: &str) -> Vec<&'a Row> {
    let named = |row: &&Row| row.edit.subjects.iter().any(|s| s == subject);
    rows.iter().filter(named).filter(|row| matches!(row.kind, Kind::Code | Kind::Constant)).collect()
}

/// What is wrong with the edits. `known` tells whether a path is a function or a definition of the repository.
pub fn faults(rows: &[Row], wanted: &[(String, usize)], known: &dyn Fn(&str) -> bool) -> Vec<String> {
    let mut found = Vec::new();
    for row in rows {
        let name = row.edit.name();
        if row.edit.subjects.is_empty() || row.edit.words.is_empty() {
            found.push(format!(
                "crates/{}/must-fail/{}.edit: it has no line `# rules out: SUBJECT: WORDS`",
                row.edit.krate, row.edit.label
            ));
            continue;
        }
        let is_wanted = |s: &str, path: bool| wanted.iter().any(|(w, _)| w == s && w.contains("::") == path);
        for subject in &row.edit.subjects {
            if !is_wanted(subject, false) && !known(subject) {
                found.push(format!("{name}: {subject} is no function, no definition, no imposter and no rule that is easy to get wrong"));
            }
            if matches!(row.kind, Kind::Specification | Kind::Proof) && is_wanted(subject, true) {
                found.push(format!("{name}: it changes no code, so it rules out no code of {subject}"));
            }
        }
        if row.fact == UNTRIED {
            found.push(format!("{name}: no log tells its first error (rt must-fail {})", row.edit.krate));
        }
    }
    for (subject, least) in wanted {
        let count = naming(rows, subject).len();
        if count < *least {
            found.push(format!("{subject}: {count} edits of code name it, and {least} must"));
        }
    }
    found
}

/// The subjects that more edits name than must: an edit costs a check of its crate.
pub fn abundant(rows: &[Row], wanted: &[(String, usize)]) -> Vec<String> {
    let counted = wanted.iter().map(|(subject, least)| (subject, naming(rows, subject).len(), least));
    let more = counted.filter(|(_, count, least)| count > least);
    more.map(|(subject, count, least)| format!("{subject}: {count} edits name it, {least} are enough"))
        .collect()
}

const HEAD: &str = "# Edits that the prover refuses

`rt ci` makes each of these edits in a copy of its crate, and the prover must refuse the copy. `edits --write` (host/checks) writes this
file from `crates/*/must-fail/*.edit` and what that run says of each, and `tests/80-edits` holds it to them.

A row tells what the edit rules out, as its first line has it; what it changes: code, a constant or a specification, old → new; and the
fact that failed, as the first error has it: the proof's file, the fact's name, the message up to the terms, as far as `rt` prints it (its words may
differ from run to run).
";

/// The document.
pub fn document(rows: &[Row], wanted: &[(String, usize)]) -> String {
    let mut text = HEAD.to_string();
    text += "\n## What is ruled out\nEach callable function is in two edits of code or more, each imposter and each line of 'Easy to get wrong' in one or more.\n\n";
    text += "| ruled out | by |\n|---|---|\n";
    for (name, _) in wanted {
        let by: Vec<String> = naming(rows, name).iter().map(|row| format!("`{}`", row.edit.name())).collect();
        text += &format!("| {} | {} |\n", subject(name), by.join(", "));
    }
    let mut krate = "";
    for row in rows {
        if row.edit.krate != krate {
            krate = &row.edit.krate;
            text +=
                &format!("\n## `{krate}`\n| edit | rules out | changes | first error |\n|---|---|---|---|\n");
        }
        text += &row.line();
    }
    text
}

/// The facts that a document has, by crate and label.
pub fn facts(document: &str) -> BTreeMap<String, String> {
    let mut found = BTreeMap::new();
    let mut krate = "";
    for line in document.lines() {
        if let Some(name) = line.strip_prefix("## `").and_then(|rest| rest.strip_suffix('`')) {
            krate = name;
        }
        let cells: Vec<&str> = line.trim_start_matches("| ").trim_end_matches(" |").split(" | ").collect();
        if let [label, _, _, fact] = cells[..] {
            found.insert(format!("{krate}/{}", label.trim_matches('`')), fact.replace("\\|", "|"));
        }
    }
    found
}

#[cfg(test)]
mod tests {
    use super::*;

    const CODE: &str = "fn f(x: u8) -> u8\n    ensures { result ≡ g x }\n{\n    x | 1\n}\n";

    fn row(label: &str, text: &str, fact: &str) -> Row {
        Row::new(Edit::parse("k", label, text), fact.to_string(), &|_| CODE.to_string())
    }

    fn good() -> Vec<Row> {
        let one =
            "# rules out: k::f, E1, no writes: the bit stays\nfile: src/lib.rt\nold: x | 1\nnew: x | 0\n";
        let two = "# rules out: k::f: nothing is set\nfile: src/lib.rt\nold:  | 1\nnew:\n";
        vec![row("one", one, "`p`, `returns`: a | b"), row("two", two, "`p`, `returns`: c")]
    }

    fn needs() -> Vec<(String, usize)> {
        vec![("k::f".to_string(), 2), ("no writes".to_string(), 1), ("E1".to_string(), 1)]
    }

    fn said(rows: &[Row]) -> String {
        faults(rows, &needs(), &|path| path == "k::f").join("\n")
    }

    #[test]
    fn accepts_covering_edits_and_reads_its_own_table() {
        assert_eq!(said(&good()), "");
        let text = document(&good(), &needs());
        assert!(text.contains("| `k::f` | `k/one`, `k/two` |"), "{text}");
        assert!(text.contains("| `one` | `k::f`, E1, no writes: the bit stays | code `f`: `x \\| 1` → `x \\| 0` | `p`, `returns`: a \\| b |"), "{text}");
        assert!(text.contains("code `f`: `\\| 1` → nothing"), "{text}");
        let along = "# rules out: k::f: w\nfile: src/lib.rt\nold: x | 1\nnew: x\nfile: proofs/P.antt\nold: fn\nnew: f\n";
        assert_eq!(row("along", along, "").change, "code `f`: `x | 1` → `x`; the proof goes along");
        let facts = facts(&text);
        assert_eq!(facts["k/one"], "`p`, `returns`: a | b");
        assert_eq!(facts["k/two"], "`p`, `returns`: c");
    }

    #[test]
    fn tells_where_there_are_more_than_needed() {
        assert!(abundant(&good(), &needs()).is_empty());
        let third = "# rules out: k::f: w\nfile: src/lib.rt\nold: x | 1\nnew: x\n";
        let rows: Vec<Row> = good().into_iter().chain([row("three", third, "`p`, `q`: r")]).collect();
        assert_eq!(abundant(&rows, &needs()), ["k::f: 3 edits name it, 2 are enough"]);
    }

    #[test]
    fn rejects_what_is_missing() {
        let without_line = row("bare", "file: src/lib.rt\nold: x | 1\nnew: x\n", "`p`, `q`: r");
        assert!(said(&[without_line]).contains("crates/k/must-fail/bare.edit: it has no line"));
        let mut rows = good();
        rows.pop();
        assert!(said(&rows).contains("k::f: 1 edits of code name it, and 2 must"));
        rows.remove(0);
        assert!(said(&rows).contains("no writes: 0 edits"));
        let untried = row("new", "# rules out: k::f: w\nfile: src/lib.rt\nold: x | 1\nnew: x\n", UNTRIED);
        assert!(said(&[untried]).contains("k/new: no log tells its first error"));
        let odd =
            row("odd", "# rules out: k::gone: w\nfile: src/lib.rt\nold: x | 1\nnew: x\n", "`p`, `q`: r");
        assert!(said(&[odd]).contains("k/odd: k::gone is no function"));
    }

    #[test]
    fn rejects_a_specification_taken_for_code() {
        let text = "# rules out: k::f: w\nfile: src/lib.rt\nold: result ≡ g x\nnew: result ≡ x\n";
        let mut rows = good();
        rows.push(row("spec", text, "`p`, `q`: r"));
        assert!(rows[2].change.starts_with("specification `f`: "));
        assert_eq!(said(&rows), "k/spec: it changes no code, so it rules out no code of k::f");
    }
}
