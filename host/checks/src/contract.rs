//! The judge of a callable function's contract: no `requires`; one `ensures`, one equation. Its left side holds the answer and every buffer that was
//! lent to be written, as it is afterwards; its right side speaks of what was handed in alone, by a definition of a specs/ folder.

use crate::face::{of_crate, Callable};
use crate::rattle::Import;
use crate::{files, read};
use std::collections::{BTreeMap, BTreeSet};

/// The definitions of the specs/ folders, by crate and file.
#[derive(Default)]
pub struct Definitions(BTreeMap<(String, String), BTreeSet<String>>);

impl Definitions {
    /// Those of the repository.
    pub fn of_repository() -> Definitions {
        let mut all = Definitions::default();
        for path in files("crates", &["antt"]) {
            let name = path.to_string_lossy().into_owned();
            let parts = name.strip_prefix("crates/").and_then(|rest| rest.split_once("/specs/"));
            if let Some((krate, file)) = parts {
                all.add(krate, file.trim_end_matches(".antt"), &read(&path));
            }
        }
        all
    }

    pub fn add(&mut self, krate: &str, module: &str, text: &str) {
        self.0.insert((krate.to_string(), module.to_string()), defined(text));
    }

    /// Whether a crate's specs/ define a name.
    pub fn defines(&self, krate: &str, name: &str) -> bool {
        self.0.iter().any(|((of, _), names)| of == krate && names.contains(name))
    }

    pub fn has(&self, import: &Import) -> bool {
        self.0
            .get(&(import.krate.clone(), import.module.clone()))
            .is_some_and(|names| names.contains(&import.name))
    }
}

/// The names that an antt file defines: `.. pub NAME : TYPE`, `pub record NAME : ..`, `pub data NAME : ..`.
fn defined(text: &str) -> BTreeSet<String> {
    let names = |line: &str| {
        let before = line.split(" : ").next()?;
        let words: Vec<&str> = before.split_whitespace().collect();
        let at = words.iter().position(|w| *w == "pub")?;
        let plain = words[..at].iter().all(|w| ["abbrev", "unfoldable"].contains(w));
        let kept = words[at + 1..].iter().filter(|w| !["record", "data"].contains(w));
        (plain && line.contains(" : ")).then(|| kept.map(|w| w.to_string()).collect::<Vec<_>>())
    };
    text.lines().filter_map(names).flatten().collect()
}

/// The words and brackets of a term.
fn tokens(term: &str) -> Vec<&str> {
    let mut found = Vec::new();
    for word in term.split_whitespace() {
        let mut rest = word;
        while let Some(at) = rest.find(['(', ')', '{', '}', ';']) {
            found.extend([&rest[..at], &rest[at..at + 1]]);
            rest = &rest[at + 1..];
        }
        found.push(rest);
    }
    found.retain(|token| !token.is_empty());
    found
}

fn opens(token: &str) -> bool {
    token == "(" || token == "{"
}

fn closes(token: &str) -> bool {
    token == ")" || token == "}"
}

/// Where each token stands outside all brackets.
fn outside(term: &[&str]) -> Vec<bool> {
    let mut depth = 0;
    let place = |token: &&str| {
        depth -= usize::from(closes(token) && depth > 0);
        let out = depth == 0 && !opens(token) && !closes(token);
        depth += usize::from(opens(token));
        out
    };
    term.iter().map(place).collect()
}

/// A term without brackets around the whole of it.
fn bare<'a, 'b>(term: &'b [&'a str]) -> &'b [&'a str] {
    match term {
        ["(", inner @ .., ")"] => {
            let mut depth = 0;
            let stays = inner.iter().all(|token| {
                depth += i32::from(opens(token)) - i32::from(closes(token));
                depth >= 0
            });
            if stays {
                bare(inner)
            } else {
                term
            }
        }
        _ => term,
    }
}

/// Signs that make something else of a term than one equation.
const CONNECTIVES: [&str; 15] = ["×", "→", "⊎", "∨", "∧", "¬", "∀", "∃", "Σ", "λ", ",", "⌜", "⌝", "let", "∗"];

/// The two sides of a term that is one equation.
fn sides<'a, 'b>(term: &'b [&'a str]) -> Option<(&'b [&'a str], &'b [&'a str])> {
    let term = bare(term);
    let outer = outside(term);
    let at: Vec<usize> = (0..term.len()).filter(|i| outer[*i] && term[*i] == "≡").collect();
    let joined = (0..term.len()).any(|i| outer[i] && CONNECTIVES.contains(&term[i]));
    match at[..] {
        [at] if !joined && at > 0 && at + 1 < term.len() => Some((&term[..at], &term[at + 1..])),
        _ => None,
    }
}

/// A name and what it is of: `NAME`, `NAME.0`, `NAME.field`.
fn is_of(token: &str, name: &str) -> bool {
    token.strip_prefix(name).is_some_and(|rest| rest.is_empty() || rest.starts_with('.'))
}

/// Whether a term speaks of the answer, `result`; a record's field of that name, `result = ..`, does not.
fn speaks_of_answer(term: &[&str]) -> bool {
    let field = |i: usize| term.get(i + 1) == Some(&"=");
    (0..term.len()).any(|i| is_of(term[i], "result") && !field(i))
}

fn speaks_of_exit(term: &[&str], name: &str) -> bool {
    let exit = format!("{name}.new");
    term.iter().any(|token| is_of(token, &exit))
}

/// Whether a term speaks of what any lent buffer is afterwards.
fn speaks_of_an_exit(term: &[&str]) -> bool {
    term.iter().any(|token| token.split('.').skip(1).any(|part| part == "new"))
}

/// The imports that a contract names and that a specs/ folder defines.
pub fn named<'a>(callable: &'a Callable, definitions: &Definitions, term: &str) -> Vec<&'a Import> {
    let words = tokens(term);
    callable.imports.iter().filter(|i| words.contains(&i.local.as_str()) && definitions.has(i)).collect()
}

/// What is wrong with a contract.
pub fn faults(callable: &Callable, definitions: &Definitions) -> Vec<String> {
    let f = &callable.function;
    let mut found = Vec::new();
    if !f.requires.is_empty() {
        found.push("it has a `requires`".to_string());
    }
    match &f.ensures[..] {
        [] => found.push("it has no `ensures`".to_string()),
        [one] => found.extend(ensures_faults(callable, definitions, one)),
        _ => found.push("it has more than one `ensures`".to_string()),
    }
    found.into_iter().map(|fault| format!("{}: {}: {fault}", callable.file, callable.path)).collect()
}

fn ensures_faults(callable: &Callable, definitions: &Definitions, ensures: &str) -> Vec<String> {
    if callable.function.starred {
        return vec!["its `ensures` is starred: an assertion, and no equation".to_string()];
    }
    let words = tokens(ensures);
    let Some((left, right)) = sides(&words) else {
        return vec!["its `ensures` is not one equation".to_string()];
    };
    let f = &callable.function;
    let mut found = Vec::new();
    if left == right {
        found.push("both sides of its `ensures` are the same".to_string());
    }
    if f.answers && !speaks_of_answer(left) {
        found.push("the left side of its `ensures` does not hold the answer".to_string());
    }
    for name in f.lent.iter().filter(|name| !speaks_of_exit(left, name)) {
        found.push(format!(
            "the left side of its `ensures` does not hold `{name}.new`, which is lent to be written"
        ));
    }
    if speaks_of_an_exit(right) || speaks_of_answer(right) {
        found.push("the right side of its `ensures` speaks of the outcome".to_string());
    }
    if named(callable, definitions, &right.join(" ")).is_empty() {
        found.push("the right side of its `ensures` names no definition of a specs/ folder".to_string());
    }
    found
}

/// Contracts with what must be said of each; none for the good ones.
const SAMPLES: [(&str, &str, &str); 23] = [
    ("an equation", "pub fn f(x: u8) -> u8 ensures { result ≡ next x } { x }", ""),
    ("an equation of a part", "pub fn f(x: u8) -> u8 ensures { result.0 ≡ next x } { x }", ""),
    (
        "a record with a lent buffer",
        "pub fn f(s: &mut [u8], k: u64) -> u32 ensures { (record { result = result; bytes = s.new } ≡ told k s.old) } { 0 }",
        "",
    ),
    ("a clause with a name", "pub fn f(x: u8) -> u8 ensures value { result ≡ next x } { x }", ""),
    ("no answer", "pub fn f<'a>(s: &'a mut [u8]) ensures { s.new ≡ zeroed s.old } { }", ""),
    ("a requires", "pub fn f(x: u8) -> u8 requires { x < 16 } ensures { result ≡ next x } { x }", "it has a `requires`"),
    ("a requires with a name", "pub fn f(x: u8) -> u8 requires small { x < 16 } ensures { result ≡ next x } { x }", "it has a `requires`"),
    ("no ensures", "pub fn f(x: u8) -> u8 { x }", "it has no `ensures`"),
    (
        "two ensures",
        "pub fn f(x: u8) -> u8 ensures value { result ≡ next x } ensures low { result ≡ next x } { x }",
        "it has more than one `ensures`",
    ),
    (
        "an assertion",
        "pub fn f(x: u8) -> u8 ensures* { ⌜ result ≡ next x ⌝ } { x }",
        "its `ensures` is starred: an assertion, and no equation",
    ),
    (
        "no definition",
        "pub fn f(x: u8) -> u8 ensures { result ≡ x + 1 } { x }",
        "the right side of its `ensures` names no definition of a specs/ folder",
    ),
    (
        "a law for a definition",
        "pub fn f(x: u8) -> u8 ensures { result ≡ proved x } { x }",
        "the right side of its `ensures` names no definition of a specs/ folder",
    ),
    (
        "a name that its file of specs/ has not",
        "pub fn f(x: u8) -> u8 ensures { result ≡ gone x } { x }",
        "the right side of its `ensures` names no definition of a specs/ folder",
    ),
    (
        "a definition on the left alone",
        "pub fn f(x: u8) -> u8 ensures { next result ≡ x } { x }",
        "the right side of its `ensures` names no definition of a specs/ folder",
    ),
    (
        "a lent buffer passed over",
        "pub fn f(s: &mut [u8], t: &mut u64) -> u32 ensures { record { result = result; bytes = s.new } ≡ told t.old } { 0 }",
        "the left side of its `ensures` does not hold `t.new`, which is lent to be written",
    ),
    (
        "a lent buffer as it was",
        "pub fn f(s: &mut [u8]) -> u32 ensures { record { result = result; bytes = s.old } ≡ told s.old } { 0 }",
        "the left side of its `ensures` does not hold `s.new`, which is lent to be written",
    ),
    (
        "an answer passed over",
        "pub fn f(s: &mut [u8]) -> u32 ensures { s.new ≡ zeroed s.old } { 0 }",
        "the left side of its `ensures` does not hold the answer",
    ),
    (
        "an answer named as a field alone",
        "pub fn f(s: &mut [u8]) -> u32 ensures { record { result = 0; bytes = s.new } ≡ told s.old } { 0 }",
        "the left side of its `ensures` does not hold the answer",
    ),
    (
        "the outcome on the right",
        "pub fn f(s: &mut [u8]) -> u32 ensures { record { result = result; bytes = s.new } ≡ told s.new } { 0 }",
        "the right side of its `ensures` speaks of the outcome",
    ),
    ("a product", "pub fn f(x: u8) -> u8 ensures { (result ≡ next x) × (result < 60) } { x }", "its `ensures` is not one equation"),
    ("a condition", "pub fn f(x: u8) -> u8 ensures { x < 16 → result ≡ next x } { x }", "its `ensures` is not one equation"),
    ("a bare fact", "pub fn f(x: u8) -> u8 ensures { Near result } { x }", "its `ensures` is not one equation"),
    (
        "the same on both sides",
        "pub fn f(x: u8) -> u8 ensures { next result ≡ next result } { x }",
        "both sides of its `ensures` are the same",
    ),
];

const SAMPLE_IMPORTS: &str = "ghost use Rattle.k.specs.Calls.{next, plain as zeroed, told, gone, Near};\nghost use Rattle.k.proofs.Laws.{proved};\n";

const SAMPLE_SPECS: &str =
    "-- gone\nabbrev pub next : ℕ → ℕ\nnext x = gone x\nunfoldable pub plain : List ℕ → List ℕ\n\
    module _ (g : ℕ) where\n  abbrev pub told : ℕ → Out\npub record Near : Type 0 where\n";

/// How many sample contracts are judged as they must be; the first that is not.
pub fn self_test() -> Result<usize, String> {
    let mut definitions = Definitions::default();
    definitions.add("k", "Calls", SAMPLE_SPECS);
    for (what, text, wanted) in SAMPLES {
        let file = |path: &str| (path == "src/lib.rt").then(|| format!("{SAMPLE_IMPORTS}{text}"));
        let found: Vec<String> = of_crate("k", &file).iter().flat_map(|c| faults(c, &definitions)).collect();
        let said = match wanted {
            "" => found.is_empty(),
            wanted => found.iter().any(|fault| *fault == format!("crates/k/src/lib.rt: k::f: {wanted}")),
        };
        if !said {
            return Err(format!("self-test, {what}: wanted `{wanted}`, said {found:?}"));
        }
    }
    Ok(SAMPLES.len())
}

#[cfg(test)]
mod tests {
    use super::*;

    #[test]
    fn judges_the_samples() {
        assert_eq!(self_test(), Ok(SAMPLES.len()));
    }

    #[test]
    fn reads_terms() {
        assert_eq!(tokens("f (g x.now); {a}"), ["f", "(", "g", "x.now", ")", ";", "{", "a", "}"]);
        let term = tokens("(a ≡ b) × (c ≡ d)");
        assert!(sides(&term).is_none());
        assert_eq!(bare(&term).len(), term.len());
        assert_eq!(sides(&tokens("((a ≡ f (b ≡ c)))")).map(|s| (s.0.len(), s.1.len())), Some((1, 6)));
        assert!(sides(&tokens("a ≡ b ≡ c")).is_none());
    }
}
