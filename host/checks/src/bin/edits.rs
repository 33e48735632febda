//! Holds docs/EDITS.md to the must-fail edits and to what `rt ci` or `rt must-fail` said of them (target/log), and says what no edit covers, and what more cover than must.
//!
//! usage, from the repository's root: edits [--write]

use checks::edit::Edit;
use checks::edits::{abundant, document, facts, faults, wanted, Row, IMPOSTERS, UNTRIED};
use checks::{contract::Definitions, crates::Crates, face, fail, files, log, read, settle, tables, write};
use std::collections::BTreeMap;
use std::path::{Path, PathBuf};
use std::time::SystemTime;
use std::{env, fs};

const DOCUMENT: &str = "docs/EDITS.md";

/// The edits of a crate, by label.
fn edits_of(krate: &str) -> Vec<Edit> {
    let paths = files(format!("crates/{krate}/must-fail"), &["edit"]);
    let label = |path: &Path| path.file_stem().unwrap_or_default().to_string_lossy().into_owned();
    paths.iter().map(|path| Edit::parse(krate, &label(path), &read(path))).collect()
}

/// The folder where the gate leaves what `rt ci` said; what `rt must-fail` said may lie there too, in a file of any name.
const LOGS: &str = "target/log";

/// What is said of each edit, by CRATE/LABEL, and when.
fn logs() -> BTreeMap<String, (SystemTime, String)> {
    let entries = fs::read_dir(LOGS).into_iter().flatten().flatten().map(|entry| entry.path());
    let is_log = |path: &Path| path.is_file() && path.extension().is_none_or(|ending| ending != "cpu");
    let mut logs: Vec<(SystemTime, PathBuf)> =
        entries.filter(|path| is_log(path)).filter_map(|path| Some((written(&path)?, path))).collect();
    logs.sort();
    let all = |(when, path): &(SystemTime, PathBuf)| {
        let when = *when;
        log::outcomes(&read(path)).into_iter().map(move |(name, said)| (name, (when, said)))
    };
    logs.iter().flat_map(all).collect()
}

fn written(path: impl AsRef<Path>) -> Option<SystemTime> {
    fs::metadata(path).ok()?.modified().ok()
}

/// What is said of the edit as it stands: neither it nor a file that it changes was written since.
fn said_of(edit: &Edit, logs: &BTreeMap<String, (SystemTime, String)>) -> Option<String> {
    let (when, said) = logs.get(&edit.name())?;
    let own = format!("must-fail/{}.edit", edit.label);
    let files = edit.changes.iter().map(|change| change.file.clone()).chain([own]);
    let older = |file: String| written(format!("crates/{}/{file}", edit.krate)).is_some_and(|it| it <= *when);
    files.map(older).all(|older| older).then(|| said.clone())
}

/// The fact of an edit: that which is said of it, or else that of the document; and what is wrong with it. Where both name the same fact, the document's words stand:
/// the prover's differ with what it has loaded, in `rt ci` and in `rt must-fail`.
fn fact(edit: &Edit, said: Option<&str>, told: Option<&String>) -> (String, Option<String>) {
    let name = edit.name();
    let Some(said) = said else { return (told.cloned().unwrap_or(UNTRIED.to_string()), None) };
    match log::first_error(said) {
        Some(error) => {
            let odd = !log::is_fact(&error.message);
            let same = told.filter(|told| told.starts_with(&error.place()));
            (
                same.cloned().unwrap_or(error.shown()),
                odd.then(|| format!("{name}: its first error is no failed fact: {}", error.message)),
            )
        }
        None => {
            (UNTRIED.to_string(), Some(format!("{name}: it was not refused for a fact that failed: {said}")))
        }
    }
}

/// Every edit with its row, and how many have a log.
fn rows(crates: &[String], told: &BTreeMap<String, String>, found: &mut Vec<String>) -> (Vec<Row>, usize) {
    let (mut rows, mut tried) = (Vec::new(), 0);
    let logs = logs();
    for edit in crates.iter().flat_map(|krate| edits_of(krate)) {
        let krate = edit.krate.clone();
        let text_of = |file: &str| fs::read_to_string(format!("crates/{krate}/{file}")).unwrap_or_default();
        if edit.edited(&text_of).is_none() {
            found.push(format!("{}: it has an old text that does not stand in its file once", edit.name()));
        }
        let said = said_of(&edit, &logs);
        tried += usize::from(said.is_some());
        let (fact, fault) = fact(&edit, said.as_deref(), told.get(&edit.name()));
        found.extend(fault);
        rows.push(Row::new(edit, fact, &text_of));
    }
    (rows, tried)
}

/// Whether a path names a function or a definition: `crate::function`, `crate::module::function`, `crate::definition`.
fn is_there(path: &str, crates: &Crates, definitions: &Definitions) -> bool {
    let Some((krate, item)) = path.split_once("::") else { return false };
    definitions.defines(krate, item) || item.split("::").all(|part| crates.source_has(krate, part))
}

fn main() {
    let writes = match env::args().nth(1).as_deref() {
        None => false,
        Some("--write") => true,
        Some(other) => fail(&format!("{other}: unknown")),
    };
    let crates = Crates::read(Path::new("."));
    let trace = read("docs/TRACE.md");
    let rules = tables::rules(&trace);
    let easy: Vec<&str> = rules.iter().map(|rule| rule.0).filter(|number| number.starts_with('E')).collect();
    let imposters = rules.iter().find(|rule| rule.0 == "P2").map_or("", |rule| rule.1);
    let callables = face::callables().unwrap_or_else(|message| fail(&message));
    let paths: Vec<String> = callables.into_iter().map(|c| c.path).collect();
    let wanted = wanted(&paths, &easy);

    let mut found = Vec::new();
    for name in IMPOSTERS.iter().filter(|name| !imposters.contains(**name)) {
        found.push(format!("docs/TRACE.md: P2 does not name the imposter '{name}'"));
    }
    let old = fs::read_to_string(DOCUMENT).unwrap_or_default();
    let (rows, tried) = rows(&crates.names, &facts(&old), &mut found);
    let definitions = Definitions::of_repository();
    let known = |path: &str| is_there(path, &crates, &definitions);
    found.extend(faults(&rows, &wanted, &known));
    abundant(&rows, &wanted).iter().for_each(|line| println!("{line}"));
    let new = document(&rows, &wanted);
    if writes {
        write(DOCUMENT, &new);
    } else if old != new {
        found.push(format!("{DOCUMENT}: it is not what the edits and their logs say (edits --write)"));
    }
    settle(&found, &format!("{} edits, {tried} with a log", rows.len()));
}
