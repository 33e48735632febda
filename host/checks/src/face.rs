//! The callable functions: the public functions of the crates that docs/ARCHITECTURE.md calls callable.

use crate::rattle::{functions, imports, modules, Function, Import};
use crate::{read, tables};
use std::path::Path;

/// A callable function, with what its file imports of specs/.
pub struct Callable {
    pub krate: String,
    /// as a caller writes it: `crate::function`, or `crate::module::function`
    pub path: String,
    pub file: String,
    pub function: Function,
    pub imports: Vec<Import>,
}

/// A crate's callable functions: those that are public from its root down, and those exported to C wherever they stand.
pub fn of_crate(krate: &str, read_file: &dyn Fn(&str) -> Option<String>) -> Vec<Callable> {
    let mut found = Vec::new();
    below(krate, "lib", krate, true, read_file, &mut found);
    found
}

fn below(
    krate: &str,
    module: &str,
    path: &str,
    public: bool,
    read_file: &dyn Fn(&str) -> Option<String>,
    found: &mut Vec<Callable>,
) {
    let file = format!("src/{module}.rt");
    let Some(text) = read_file(&file) else { return };
    let imported = imports(&text);
    for function in functions(&text).into_iter().filter(|f| f.public && (public || f.exported)) {
        let home = if function.exported { krate } else { path };
        found.push(Callable {
            krate: krate.to_string(),
            path: format!("{home}::{}", function.name),
            file: format!("crates/{krate}/{file}"),
            function,
            imports: imported.clone(),
        });
    }
    for (name, open) in modules(&text) {
        let inner = if module == "lib" { name.clone() } else { format!("{module}/{name}") };
        below(krate, &inner, &format!("{path}::{name}"), public && open, read_file, found);
    }
}

/// The callable crates; an error where docs/ARCHITECTURE.md and crates.txt do not list the same ones.
pub fn crates() -> Result<Vec<String>, String> {
    let described = tables::described(&read("docs/ARCHITECTURE.md"));
    let listed = tables::crates(&read("crates.txt"));
    let names = || described.iter().map(|row| &row.0);
    if let Some(odd) =
        names().find(|n| !listed.contains(n)).or(listed.iter().find(|n| !names().any(|row| row == *n)))
    {
        return Err(format!("docs/ARCHITECTURE.md, crates.txt: only one of them has the crate {odd}"));
    }
    Ok(described.into_iter().filter(|row| row.1).map(|row| row.0).collect())
}

/// The functions of a crate of the repository.
pub fn in_repository(krate: &str) -> Vec<Callable> {
    of_crate(krate, &|file| std::fs::read_to_string(Path::new("crates").join(krate).join(file)).ok())
}

/// The repository's callable functions, by crate.
pub fn callables() -> Result<Vec<Callable>, String> {
    let mut found = Vec::new();
    for krate in crates()? {
        let own = in_repository(&krate);
        if own.is_empty() {
            return Err(format!(
                "crates/{krate}: docs/ARCHITECTURE.md calls it callable, and it has no callable function"
            ));
        }
        found.extend(own);
    }
    Ok(found)
}

#[cfg(test)]
mod tests {
    use super::*;

    #[test]
    fn takes_public_and_exported_functions() {
        let file = |path: &str| {
            let text = match path {
                "src/lib.rt" => "pub mod open;\nmod own;\npub fn a() {}\nfn b() {}\npub(crate) fn c() {}\n",
                "src/open.rt" => "mod deep;\npub fn d() {}\n",
                "src/open/deep.rt" => "pub fn e() {}\n",
                "src/own.rt" => "pub fn f() {}\n#[unsafe(no_mangle)]\npub extern \"C\" fn g() {}\n",
                _ => return None,
            };
            Some(text.to_string())
        };
        let found = of_crate("k", &file);
        assert_eq!(found.iter().map(|c| c.path.as_str()).collect::<Vec<_>>(), ["k::a", "k::open::d", "k::g"]);
        assert_eq!(found[2].file, "crates/k/src/own.rt");
    }
}
