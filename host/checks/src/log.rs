//! What `rt ci` or `rt must-fail` says of each edit, and the fact of its first error.

use std::collections::BTreeMap;

/// A shown message has at most so many characters.
const SHOWN: usize = 170;

/// `rt` tells so many characters of an edit's first error.
const TOLD: usize = 160;

/// What the first error of an edit says: the file of the proof, the name of the fact, and what failed.
#[derive(Clone, Debug, PartialEq)]
pub struct Fact {
    pub file: String,
    pub name: String,
    pub message: String,
}

impl Fact {
    /// The fact in one line, cut at `SHOWN` characters of the message.
    pub fn shown(&self) -> String {
        format!("{}{}", self.place(), cut(&self.message))
    }

    /// Which fact it is: how its line begins.
    pub fn place(&self) -> String {
        format!("`{}`, `{}`: ", self.file, self.name)
    }
}

/// What is said of each edit, by CRATE/LABEL: the lines `rt: must-fail CRATE/LABEL.edit: ..`, the last one where there are several.
pub fn outcomes(output: &str) -> BTreeMap<String, String> {
    let one = |line: &str| {
        let (name, said) = line.strip_prefix("rt: must-fail ")?.split_once(".edit: ")?;
        Some((name.to_string(), said.to_string()))
    };
    output.lines().filter_map(one).collect()
}

/// How that begins where the prover refused the edit, and not for a name that is gone or for a limit of its own.
const REFUSED: &str = "refused, as it must be: ";

/// The first error of what is said of an edit: `PLACE: error: `NAME`: MESSAGE`, or, where a function has no proof of its own, the first goal that the prover could not
/// meet, at its place in the source: `note: PLACE: MESSAGE (`NAME`)`. None where no fact is told.
pub fn first_error(said: &str) -> Option<Fact> {
    let told = said.strip_prefix(REFUSED)?;
    let whole = if told.chars().count() < TOLD { told } else { told.rsplit_once(' ')?.0 };
    let more = if whole == told { "" } else { " …" };
    match whole.strip_prefix("note: ") {
        Some(note) => {
            let (place, message) = note.split_once(": ")?;
            let named = message
                .split_once(" (`")
                .and_then(|(message, rest)| Some((message, rest.split_once("`)")?.0)));
            let (message, name) =
                named.map_or((ended(&plain(message), more), ""), |(message, name)| (plain(message), name));
            Some(Fact { file: file_of(place)?, name: name.to_string(), message })
        }
        None => {
            let (place, message) = whole.split_once(": error: ")?;
            let named = message.strip_prefix('`').and_then(|rest| rest.split_once("`: "));
            let (name, message) = named.unwrap_or(("", message));
            Some(Fact {
                file: file_of(place)?,
                name: name.to_string(),
                message: ended(&plain(message), more),
            })
        }
    }
}

/// The file of a place, `FILE:LINE:COLUMN`.
fn file_of(place: &str) -> Option<String> {
    let file = place.split(':').next()?;
    (!place.contains(' ')).then(|| file.trim_start_matches("./").to_string())
}

/// A message that is cut within a quotation, with the quotation's end; a quotation of which nothing is left is left out.
fn ended(message: &str, more: &str) -> String {
    if message.matches('`').count() % 2 == 0 {
        return format!("{message}{more}");
    }
    match message.strip_suffix('`') {
        Some(before) => format!("{}{more}", before.trim_end()),
        None => format!("{message}{more}`"),
    }
}

/// How the comparison of two types begins that says most; one of the types as they are printed may stand before it.
const COMPUTED: &str = "computed as far as ";

/// A message in one line: up to the types that it quotes in full and to its hints, names without their modules, and no steps back in a context.
fn plain(message: &str) -> String {
    let told = message.find(COMPUTED).map_or(message, |at| &message[at..]);
    let told = told.split(" expected type `").next().unwrap_or(told);
    let told = told.split(" (this comparison").next().unwrap_or(told);
    let told = told.find("(found)").map_or(told, |at| &told[..at + "(found)".len()]);
    let parts: Vec<String> = told
        .split('`')
        .enumerate()
        .map(|(i, part)| if i % 2 == 1 { term(part) } else { part.to_string() })
        .collect();
    parts.join("`").split_whitespace().collect::<Vec<_>>().join(" ")
}

fn cut(line: &str) -> String {
    let start: String = line.chars().take(SHOWN).collect();
    if start.len() == line.len() {
        return start;
    }
    let quoted = start.matches('`').count() % 2 == 1;
    format!("{} …{}", start.trim_end(), if quoted { "`" } else { "" })
}

/// A term with each name without its modules, `c.before.before.x` as `c.x`, unknowns without their numbers, and parts left out without their lengths.
fn term(text: &str) -> String {
    let word = |word: &str| {
        let body = word.trim_end_matches([')', '}']);
        let start = body.rfind(['(', '{']).map_or(0, |i| i + 1);
        format!("{}{}{}", &body[..start], name(&body[start..]), &word[body.len()..])
    };
    text.split(' ').map(word).collect::<Vec<_>>().join(" ")
}

fn name(word: &str) -> String {
    if word.starts_with('?') {
        return "?".to_string();
    }
    if word.contains("…[") || word.contains("]…") {
        return "…".to_string();
    }
    let parts: Vec<&str> = word.split('.').filter(|part| !part.is_empty() && *part != "before").collect();
    let is_module = |part: &&str| part.starts_with(char::is_uppercase);
    match parts.split_last() {
        Some((last, modules)) if modules.iter().any(is_module) => last.to_string(),
        Some(_) => parts.join("."),
        None => word.to_string(),
    }
}

/// Words of errors that are about the text of a proof, not about what it proves.
const NO_FACTS: [&str; 6] =
    ["has no `", "not in scope", "unresolved import", "unexpected", "does not parse", "was not admitted"];

/// What the prover adds to types that it prints: that names in them can't be written so.
const PRINTED: &str = "are not in scope here, so what is shown does not paste back";

/// Whether a message tells of a fact that does not hold, not of a name or a text that can't be read.
pub fn is_fact(message: &str) -> bool {
    let told = message.replace(PRINTED, "");
    !told.is_empty() && !NO_FACTS.iter().any(|words| told.contains(words))
}

#[cfg(test)]
mod tests {
    use super::*;

    #[test]
    fn a_type_that_differs_is_a_fact() {
        let differs = "expected type `a ≤ b + 1`, but this has type `a ≤ b` `a`, `b` are not in scope here, so what is shown does not paste back";
        assert!(is_fact(differs));
        assert!(!is_fact("`a` is not in scope"));
    }

    #[test]
    fn reads_what_is_said_of_each_edit() {
        let output = "rt: k: trying its must-fail edits (2)\nrt: must-fail k/far.edit: refused, as it must be: a\nrt: must-fail k/near.edit: BAD EDIT: b\n\
            rt: must-fail k/far.edit: refused, as it must be: c: d\n";
        let found = outcomes(output);
        assert_eq!((found.len(), found["k/far"].as_str()), (2, "refused, as it must be: c: d"));
        assert_eq!(found["k/near"], "BAD EDIT: b");
    }

    #[test]
    fn reads_the_first_error() {
        let fact = first_error("refused, as it must be: ./proofs/m/f/Answers.antt:29:75: error: `returns-then-x`: computed as far as they go, the two types differ only where one has `1`").unwrap();
        assert_eq!((fact.file.as_str(), fact.name.as_str()), ("proofs/m/f/Answers.antt", "returns-then-x"));
        assert_eq!(fact.message, "computed as far as they go, the two types differ only where one has `1`");
        assert!(is_fact(&fact.message));
        for none in [
            "refused, as it must be",
            "BAD EDIT: there is no file proofs/f/Proof.antt",
            "NOT REFUSED: the crate is still proved with this edit",
        ] {
            assert!(first_error(none).is_none(), "{none}");
        }
        for weak in [
            "(only because a proof file names what the edit took away)",
            "(only by a limit of the prover, which gave no verdict)",
        ] {
            assert!(
                first_error(&format!("refused, as it must be {weak}: proofs/A.antt:1:1: error: `f`: x"))
                    .is_none(),
                "{weak}"
            );
        }
    }

    #[test]
    fn reads_a_goal_at_its_place_in_the_source() {
        let said = "refused, as it must be: note: src/lib.rt:16:5: it is not proved that what `f` requires holds at this call (`f-requires`); the facts known there allow";
        assert_eq!(
            first_error(said).unwrap().shown(),
            "`src/lib.rt`, `f-requires`: it is not proved that what `f` requires holds at this call"
        );
    }

    #[test]
    fn ends_what_rt_has_cut() {
        let said = |end: &str| {
            let text = "./proofs/same/Answers.antt:16:62: error: `returns`: as printed, the two types differ only where one has `c.i` (expected), right after";
            let told: String = format!("{text} {end}").chars().take(TOLD).collect();
            first_error(&format!("refused, as it must be: {told}")).unwrap().message
        };
        let start = "as printed, the two types differ only where one has `c.i` (expected), right after";
        assert_eq!(said("`A.b`"), format!("{start} `b`"));
        assert_eq!(said("`A.b c.before.d mathlib.Core.Path.refl`"), format!("{start} `b c.d …`"));
        assert_eq!(said("`mathlib.Core.Path.a_name_of_many_letters x y z`"), format!("{start} …"));
    }

    #[test]
    fn prefers_the_computed_comparison() {
        let message = "as printed, the two types first differ where one has `a` (expected) and the other has `b` (found) computed as far as they go, the two types differ only where one has `A.d` (expected) and the other has `x` (found) `d` does not unfold here expected type `e`";
        assert_eq!(
            plain(message),
            "computed as far as they go, the two types differ only where one has `d` (expected) and the other has `x` (found)"
        );
    }

    #[test]
    fn tells_facts_from_names() {
        for message in [
            "`tie` has no `Need-f-requires`",
            "`x` is not in scope",
            "`f` was not admitted (it has holes)",
            "",
        ] {
            assert!(!is_fact(message), "{message}");
        }
        assert!(is_fact("`omega`: the goal does not follow from what it read."));
    }

    #[test]
    fn cuts_a_long_message() {
        let shown = cut(&plain(&format!("the goal `{}` does not hold", "x ".repeat(200))));
        assert!(shown.ends_with("x …`") && shown.chars().count() <= SHOWN + 3, "{shown}");
        assert_eq!(term("Rattle.a.specs.B.f (c.before.before) c.before.args.b.now"), "f (c) c.args.b.now");
        assert_eq!(term("f (lib.L…[536 bytes]…ytes.isZero guid) (?57 g)"), "f (… … guid) (? g)");
    }
}
