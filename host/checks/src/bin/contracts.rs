//! Lists every callable function and judges its contract; holds the exports of thin crates to their libraries; holds docs/PROMISES.md, its printed contracts and its references, to the sources.
//!
//! usage, from the repository's root: contracts [--list | --print | --write | --self-test]

use checks::contract::{faults, self_test, Definitions};
use checks::{face, fail, promises, read, reference, settle, tables, thin, write};
use std::{env, fs};

const DOCUMENT: &str = "docs/PROMISES.md";

fn main() {
    let word = env::args().nth(1).unwrap_or_default();
    if word == "--self-test" {
        match self_test() {
            Ok(count) => return println!("{count} sample contracts judged as they must be"),
            Err(message) => fail(&message),
        }
    }
    let callables = face::callables().unwrap_or_else(|message| fail(&message));
    let definitions = Definitions::of_repository();
    let section = promises::section(&callables, &definitions);
    match word.as_str() {
        "--list" => callables.iter().for_each(|c| println!("{}", c.path)),
        "--print" => print!("{section}"),
        "--write" => match promises::with_section(&read(DOCUMENT), &section) {
            Some(text) => write(DOCUMENT, &text),
            None => fail(&format!("{DOCUMENT}: the two marks of the printed contracts are not there")),
        },
        "" => {
            let mut found: Vec<String> = callables.iter().flat_map(|c| faults(c, &definitions)).collect();
            for (name, library) in thin::pairs(&tables::crates(&read("crates.txt"))) {
                let parts = [&name, &library].map(|krate| face::in_repository(krate));
                found.extend(thin::faults(&parts[0], &parts[1], &|path| read(path)));
            }
            let document = read(DOCUMENT);
            let broken = reference::faults(&document, &|path| fs::read_to_string(path).ok());
            found.extend(broken.into_iter().map(|fault| format!("{DOCUMENT}: {fault}")));
            if promises::parts(&document).map(|parts| parts.1) != Some(&section) {
                found.push(format!(
                    "{DOCUMENT}: the printed contracts are not those of the sources (contracts --write)"
                ));
            }
            settle(&found, &format!("{} callable functions", callables.len()));
        }
        other => fail(&format!("{other}: unknown")),
    }
}
