//! Holds the public names of the crates' specs/ to the glossary of docs/ARCHITECTURE.md: no name stands in two crates with two meanings.
//!
//! usage, from the repository's root: words

use checks::crates::Crates;
use checks::words::{declared, defined, faults, glossary};
use checks::{files, read, settle};
use std::path::Path;

fn main() {
    let crates = Crates::read(Path::new("."));
    let mut names: Vec<(String, String)> = Vec::new();
    for krate in &crates.names {
        let specs = files(crates.path(krate).join("specs"), &["antt"]);
        let sources = files(crates.path(krate).join("src"), &["rt"]);
        let own = specs.iter().flat_map(|path| defined(&read(path)));
        let types = sources.iter().flat_map(|path| declared(&read(path)));
        names.extend(own.chain(types).map(|name| (krate.clone(), name)));
    }
    let glossary = glossary(&read("docs/ARCHITECTURE.md"));
    let found = faults(&names, &glossary);
    settle(
        &found,
        &format!("{} public names in specs/, {} words in the glossary", names.len(), glossary.len()),
    );
}
