//! References in a document: a path of an antt file in backticks, and right behind it, in backticks too, names that stand in that file.

use std::path::Path;

/// The references of a document: each file with the names behind it.
pub fn references(document: &str) -> Vec<(String, Vec<String>)> {
    let mut found: Vec<(String, Vec<String>)> = Vec::new();
    for line in document.lines() {
        let parts: Vec<&str> = line.split('`').collect();
        let mut open = false;
        for i in 0..parts.len() {
            match (i % 2 == 1, parts[i]) {
                (true, path)
                    if path.starts_with("crates/") && path.ends_with(".antt") && !path.contains('*') =>
                {
                    found.push((path.to_string(), Vec::new()));
                    open = true;
                }
                (true, name) if open => {
                    found.last_mut().into_iter().for_each(|last| last.1.push(name.to_string()))
                }
                (false, between) if between != " " && between != ", " => open = false,
                _ => {}
            }
        }
    }
    found
}

/// A name stands in an antt file: a line declares it.
fn stands(text: &str, name: &str) -> bool {
    let declares = |line: &str| {
        let line = line.trim_start();
        let head = line.split(" : ").next().unwrap_or("").split(" (").next().unwrap_or("");
        !line.starts_with("--") && line != head && head.split_whitespace().last() == Some(name)
    };
    text.lines().any(declares)
}

/// The references to what is not there.
pub fn faults(document: &str, read_file: &dyn Fn(&Path) -> Option<String>) -> Vec<String> {
    let mut found = Vec::new();
    for (path, names) in references(document) {
        match read_file(Path::new(&path)) {
            None => found.push(format!("{path}: there is no such file")),
            Some(text) => {
                let gone = names.iter().filter(|name| !stands(&text, name));
                found.extend(gone.map(|name| format!("{path}: {name} does not stand there")));
            }
        }
    }
    found
}

#[cfg(test)]
mod tests {
    use super::*;

    #[test]
    fn follows_references() {
        let text = "pub record Out (x : ℕ) : Type 0 where\n  pub head : ℕ\n-- pub gone : ℕ\nstep : Out\nstep = gone\n";
        let file = |path: &Path| (path == Path::new("crates/a/specs/B.antt")).then(|| text.to_string());
        let said = |document: &str| faults(document, &file).join("; ");
        assert_eq!(said("Say `crates/a/specs/B.antt` `Out`, `head`, and `other`; `step`."), "");
        assert_eq!(
            said("`crates/a/specs/B.antt` `step`, `gone`"),
            "crates/a/specs/B.antt: gone does not stand there"
        );
        assert_eq!(said("`crates/a/specs/C.antt`"), "crates/a/specs/C.antt: there is no such file");
    }
}
