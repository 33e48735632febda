//! The thin crates: a static library, which no crate can import. Where another crate imports what C calls, the calls stand in a library `NAME`, and
//! `NAME_c` exports each: with its name, parameters and clauses, by a body that only calls it. So what is judged of `NAME` holds of the exports.

use crate::face::Callable;
use std::collections::BTreeMap;

/// The thin crates among these, each with its library.
pub fn pairs(crates: &[String]) -> Vec<(String, String)> {
    let library = |name: &String| Some((name.clone(), name.strip_suffix("_c")?.to_string()));
    crates.iter().filter_map(library).filter(|(_, library)| crates.contains(library)).collect()
}

/// A text's words, with one blank between them and none inside brackets.
fn words(text: &str) -> String {
    let joined = text.split_whitespace().collect::<Vec<_>>().join(" ");
    ["( ", "{ ", "[ "]
        .into_iter()
        .fold(joined, |text, open| text.replace(open, &open[..1]))
        .replace(", )", ")")
        .replace(",)", ")")
}

/// The names of the parameters, as a call gives them.
fn arguments(signature: &str) -> String {
    let list =
        signature.split_once('(').and_then(|(_, rest)| rest.rsplit_once(')')).map_or("", |(list, _)| list);
    let names = list.split(',').filter_map(|part| Some(part.split_once(':')?.0.trim()));
    names.collect::<Vec<_>>().join(", ")
}

/// What a crate's function promises, in one text.
fn promise(callable: &Callable) -> String {
    let f = &callable.function;
    let clauses: Vec<String> = f.requires.iter().chain(&f.ensures).map(|clause| words(clause)).collect();
    format!("{} {} {}", f.requires.len(), if f.starred { "starred" } else { "" }, clauses.join(" ; "))
}

/// What is wrong with the exports of a library.
pub fn faults(thin: &[Callable], library: &[Callable], text_of: &dyn Fn(&str) -> String) -> Vec<String> {
    let own: BTreeMap<&str, &Callable> = library.iter().map(|c| (c.function.name.as_str(), c)).collect();
    let mut found = Vec::new();
    for export in thin {
        let name = export.function.name.as_str();
        let mut say = |what: &str| found.push(format!("{}: {}: {what}", export.file, export.path));
        let Some(called) = own.get(name) else {
            say("its library has no function of that name");
            continue;
        };
        if !export.function.exported {
            say("it is not exported");
        }
        let signature = words(&called.function.signature);
        if words(&export.function.signature).replacen("extern \"C\" ", "", 1) != signature {
            say("its parameters or its result are not those of the library's function");
        }
        if promise(export) != promise(called) {
            say("its clauses are not those of the library's function");
        }
        if export.imports.iter().any(|import| !called.imports.contains(import)) {
            say("its file imports a name that the library's file does not, or means another thing by it");
        }
        let body = words(&text_of(&export.file)[export.function.body.clone()]);
        if body != format!("{{{}::{name}({}) }}", called.krate, arguments(&signature)) {
            say("its body does more than call the library's function");
        }
    }
    let exported = |name: &str| thin.iter().any(|c| c.function.name == name);
    for lost in library.iter().filter(|c| !exported(&c.function.name)) {
        found.push(format!("{}: {}: the thin crate does not export it", lost.file, lost.path));
    }
    found
}

#[cfg(test)]
mod tests {
    use super::*;
    use crate::face::of_crate;

    const LIBRARY: &str = "ghost use Rattle.k.specs.Calls.{next, other};\n\
        pub fn f(\n    x: u8,\n    s: &mut [u8],\n) -> u8\n    ensures { result ≡ next x }\n{\n    x\n}\n";

    const THIN: &str = "ghost use Rattle.k.specs.Calls.{next};\n\
        #[unsafe(no_mangle)]\npub extern \"C\" fn f(x: u8, s: &mut [u8]) -> u8\n    ensures { result ≡\n        next x }\n{\n    k::f(\n        x, s,\n    )\n}\n";

    fn said(thin: &str) -> String {
        let callables = |krate: &str, text: &str| {
            of_crate(krate, &|path| (path == "src/lib.rt").then(|| text.to_string()))
        };
        let texts = |_: &str| thin.to_string();
        faults(&callables("k_c", thin), &callables("k", LIBRARY), &texts).join("\n")
    }

    #[test]
    fn finds_the_thin_crates() {
        let names: Vec<String> = ["a", "a_c", "b_c"].map(str::to_string).to_vec();
        assert_eq!(pairs(&names), [("a_c".to_string(), "a".to_string())]);
    }

    #[test]
    fn accepts_the_same_promise_by_a_call() {
        assert_eq!(said(THIN), "");
    }

    #[test]
    fn rejects_what_differs() {
        for (old, new, wanted) in [
            ("next x }", "next s }", "its clauses are not"),
            ("ensures {", "ensures* {", "its clauses are not"),
            ("ensures {", "requires { x ≡ x } ensures {", "its clauses are not"),
            ("x: u8", "x: u16", "its parameters or its result are not"),
            ("-> u8", "-> u16", "its parameters or its result are not"),
            ("k::f(", "x + k::f(", "its body does more"),
            ("x, s,", "s, x,", "its body does more"),
            ("#[unsafe(no_mangle)]\n", "", "it is not exported"),
            ("{next}", "{other as next}", "its file imports a name"),
            ("fn f(", "fn g(", "its library has no function of that name"),
            ("fn f(", "fn g(", "k::f: the thin crate does not export it"),
        ] {
            let text = THIN.replacen(old, new, 1);
            assert!(said(&text).contains(wanted), "{old} {new}: {}", said(&text));
        }
    }
}
