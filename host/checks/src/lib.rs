//! The repository's own text, as the programs of this package read it. Paths are relative to its root.

pub mod contract;
pub mod cost;
pub mod crates;
pub mod edit;
pub mod edits;
pub mod face;
pub mod log;
pub mod promises;
pub mod rattle;
pub mod reference;
pub mod tables;
pub mod thin;
pub mod words;

use std::path::{Path, PathBuf};
use std::{fs, process};

/// Ends the program with what went wrong.
pub fn fail(message: &str) -> ! {
    eprintln!("{message}");
    process::exit(1)
}

/// The text of a file that must be there.
pub fn read(path: impl AsRef<Path>) -> String {
    let path = path.as_ref();
    fs::read_to_string(path).unwrap_or_else(|e| fail(&format!("{}: {e}", path.display())))
}

/// Writes a file anew.
pub fn write(path: &str, text: &str) {
    fs::write(path, text).unwrap_or_else(|e| fail(&format!("{path}: {e}")));
}

/// The files below a folder with one of these endings, in order; but those that `rt` keeps in a folder `out`.
pub fn files(folder: impl AsRef<Path>, endings: &[&str]) -> Vec<PathBuf> {
    let Ok(entries) = fs::read_dir(folder) else { return Vec::new() };
    let mut paths: Vec<PathBuf> = entries.flatten().map(|entry| entry.path()).collect();
    paths.retain(|path| !path.ends_with("out"));
    paths.sort();
    let ends = |path: &Path| path.extension().is_some_and(|e| endings.iter().any(|ending| e == *ending));
    let below = |path: PathBuf| if path.is_dir() { files(path, endings) } else { vec![path] };
    paths.into_iter().flat_map(below).filter(|path| ends(path)).collect()
}

/// Prints each fault, and ends with status 1 if there is one.
pub fn settle(faults: &[String], summary: &str) {
    for fault in faults {
        println!("{fault}");
    }
    println!("{summary}, {} faults", faults.len());
    process::exit(if faults.is_empty() { 0 } else { 1 });
}
