//! What was typed, by the table of verbs.

use crate::failure::Failure;
use crate::help;
use crate::pages;
use crate::paths::shown;
use crate::verbs::{self, Verb, GROUPS};
use std::ffi::{OsStr, OsString};
use std::os::unix::ffi::OsStrExt;
use std::path::Path;

/// An option of a verb; `value` names what follows it.
#[derive(Debug)]
pub struct Choice {
    pub name: &'static str,
    pub value: Option<&'static str>,
    pub about: &'static str,
}

/// A call's arguments, as its verb has them.
#[derive(Clone, Debug)]
pub struct Given {
    pub operands: Vec<OsString>,
    chosen: Vec<(&'static str, Option<OsString>)>,
}

pub enum Request {
    Say(String),
    Call(&'static Verb, Given),
}

impl Given {
    pub fn path(&self, place: usize) -> &Path {
        Path::new(&self.operands[place])
    }

    /// An operand in UTF-8.
    pub fn word(&self, place: usize, what: &str) -> Result<&str, Failure> {
        utf8(&self.operands[place], what)
    }

    /// The same call with one of its operands.
    pub fn alone(&self, place: usize) -> Given {
        Given { operands: vec![self.operands[place].clone()], chosen: self.chosen.clone() }
    }

    pub fn has(&self, option: &str) -> bool {
        self.chosen.iter().any(|(name, _)| *name == option)
    }

    pub fn value(&self, option: &str) -> Option<&OsStr> {
        self.chosen.iter().find(|(name, _)| *name == option)?.1.as_deref()
    }

    /// An option's value in UTF-8.
    pub fn text(&self, option: &str) -> Result<Option<&str>, Failure> {
        self.value(option).map(|value| utf8(value, option)).transpose()
    }
}

fn utf8<'a>(value: &'a OsStr, what: &str) -> Result<&'a str, Failure> {
    value.to_str().ok_or_else(|| Failure::usage(format!("{what} is not UTF-8")))
}

/// Reads the words after the command's own name.
pub fn read(words: &[OsString]) -> Result<Request, Failure> {
    let word = |place: usize| words.get(place).and_then(|word| word.to_str());
    match word(0) {
        None if words.is_empty() => Err(wrong("a group is missing: fmd, fmap or gpt", "")),
        Some("help") => asked(&words[1..]),
        Some("--help" | "-h") => Ok(Request::Say(help::command())),
        Some("--version" | "-V") => Ok(Request::Say(help::version())),
        Some("--page") => paged(word(1)),
        _ => {
            let group = group(&words[0])?;
            match word(1) {
                Some("--help" | "-h") => Ok(Request::Say(help::group(group))),
                Some("help") => asked(&[&words[..1], &words[2..]].concat()),
                _ => read_call(verb(group, words.get(1))?, &words[2..]),
            }
        }
    }
}

/// `help`, `help GROUP` and `help GROUP VERB`.
fn asked(words: &[OsString]) -> Result<Request, Failure> {
    let said = match words {
        [] => help::command(),
        [one] => help::group(group(one)?),
        [one, name] => help::verb(verb(group(one)?, Some(name))?),
        [_, _, more, ..] => return Err(wrong(&format!("{} is one word too many", told(more)), "")),
    };
    Ok(Request::Say(said))
}

/// `--page` and `--page NAME`, for whoever installs the command.
fn paged(name: Option<&str>) -> Result<Request, Failure> {
    let page = name.map_or_else(|| Some(pages::names()), pages::page);
    page.map(Request::Say).ok_or_else(|| wrong("there is no such page: --page alone names them", ""))
}

fn group(word: &OsStr) -> Result<&'static str, Failure> {
    let found = GROUPS.iter().find(|(name, _)| word == *name);
    found.map(|(name, _)| *name).ok_or_else(|| wrong(&format!("there is no group {}", told(word)), ""))
}

fn verb(group: &str, word: Option<&OsString>) -> Result<&'static Verb, Failure> {
    let said = word.and_then(|word| word.to_str());
    verbs::of_group(group).find(|verb| Some(verb.name) == said).ok_or_else(|| {
        let names: Vec<_> = verbs::of_group(group).map(|verb| verb.name).collect();
        let found =
            word.map_or("a verb is missing".into(), |word| format!("{group} has no verb {}", told(word)));
        wrong(&format!("{found}: {}", names.join(", ")), group)
    })
}

/// A word as it may stand in a sentence.
fn told(word: &OsStr) -> String {
    shown(Path::new(word))
}

fn read_call(verb: &'static Verb, words: &[OsString]) -> Result<Request, Failure> {
    let of = format!("{} {}", verb.group, verb.name);
    let wrong = |what: String| wrong(&what, &of).with(verb.always);
    let mut given = Given { operands: Vec::new(), chosen: Vec::new() };
    let mut words = words.iter();
    let mut options_end = false;
    while let Some(word) = words.next() {
        if options_end || word == "-" || !word.as_bytes().starts_with(b"-") {
            given.operands.push(word.clone());
            continue;
        }
        if word == "--" {
            options_end = true;
            continue;
        }
        let (name, attached) = split(word);
        if name == "--help" || name == "-h" {
            return Ok(Request::Say(help::verb(verb)));
        }
        let choice = verb.options.iter().find(|choice| name == choice.name);
        let choice = choice.ok_or_else(|| wrong(format!("there is no option {}", told(name))))?;
        if given.has(choice.name) {
            return Err(wrong(format!("{} stands twice", choice.name)));
        }
        let value = match (choice.value, attached) {
            (None, None) => None,
            (None, Some(_)) => return Err(wrong(format!("{} takes no value", choice.name))),
            (Some(_), Some(value)) => Some(value.to_os_string()),
            (Some(what), None) => {
                let value = words.next().cloned();
                Some(value.ok_or_else(|| wrong(format!("{} needs {what} behind it", choice.name)))?)
            }
        };
        given.chosen.push((choice.name, value));
    }
    if let Some(choice) = verb.options[..verb.required].iter().find(|choice| !given.has(choice.name)) {
        return Err(wrong(format!("{} {} is missing", choice.name, choice.value.unwrap_or_default())));
    }
    let names = verb.operands;
    if let Some(missing) = names.get(given.operands.len()).filter(|name| !name.starts_with('[')) {
        return Err(wrong(format!("{} is missing", missing.trim_end_matches("..."))));
    }
    match given.operands.get(names.len()).filter(|_| !verb.takes_several()) {
        Some(more) => Err(wrong(format!("{} is one operand too many", told(more)))),
        None => Ok(Request::Call(verb, given)),
    }
}

/// `--name=value` in its two parts.
fn split(word: &OsStr) -> (&OsStr, Option<&OsStr>) {
    let bytes = word.as_bytes();
    match bytes.iter().position(|byte| *byte == b'=') {
        Some(at) if bytes.starts_with(b"--") => {
            (OsStr::from_bytes(&bytes[..at]), Some(OsStr::from_bytes(&bytes[at + 1..])))
        }
        _ => (word, None),
    }
}

fn wrong(what: &str, of: &str) -> Failure {
    let space = if of.is_empty() { "" } else { " " };
    Failure::usage(what).hint(format!("usigrambal{space}{of} --help tells more"))
}

#[cfg(test)]
mod tests {
    use super::*;

    fn given(words: &[&str]) -> Given {
        let words: Vec<OsString> = words.iter().map(OsString::from).collect();
        match read(&words) {
            Ok(Request::Call(_, given)) => given,
            Ok(Request::Say(said)) => panic!("{said}"),
            Err(failure) => panic!("{:?}", failure.lines()),
        }
    }

    fn refused(words: &[&str]) -> String {
        let words: Vec<OsString> = words.iter().map(OsString::from).collect();
        match read(&words) {
            Err(failure) => failure.lines().remove(0),
            Ok(_) => panic!("{words:?}"),
        }
    }

    #[test]
    fn options_stand_anywhere() {
        for words in [
            ["gpt", "add", "--size", "10M", "disk", "--json"],
            ["gpt", "add", "disk", "--json", "--size", "10M"],
        ] {
            let given = given(&words);
            assert_eq!(given.path(0), Path::new("disk"));
            assert_eq!(given.value("--size"), Some(OsStr::new("10M")));
            assert!(given.has("--json") && !given.has("--dry-run"));
        }
        let given = given(&["gpt", "rename", "--", "--disk", "1", "--name=x"]);
        assert_eq!(given.operands, ["--disk", "1", "--name=x"]);
    }

    #[test]
    fn a_value_may_be_attached() {
        let given = given(&["gpt", "add", "disk", "--size=1", "--name=a=b"]);
        assert_eq!(given.value("--name"), Some(OsStr::new("a=b")));
        assert_eq!(given.text("--size").unwrap(), Some("1"));
    }

    #[test]
    fn help_has_three_forms() {
        let said = |words: &[&str]| match read(&words.iter().map(OsString::from).collect::<Vec<_>>()) {
            Ok(Request::Say(said)) => said,
            _ => panic!("{words:?}"),
        };
        assert_eq!(said(&["help"]), said(&["--help"]));
        assert_eq!(said(&["help", "gpt"]), said(&["gpt", "--help"]));
        for words in [["help", "gpt", "add"], ["gpt", "help", "add"], ["gpt", "add", "--help"]] {
            assert!(said(&words).starts_with("Usage: usigrambal gpt add"));
        }
    }

    #[test]
    fn several_disks() {
        let given = given(&["gpt", "show", "a", "--json", "b"]);
        assert_eq!(given.operands, ["a", "b"]);
        assert_eq!(given.alone(1).path(0), Path::new("b"));
        assert!(given.alone(1).has("--json"));
    }

    #[test]
    fn wrong_words_are_named() {
        assert!(refused(&[]).contains("a group is missing"));
        assert!(refused(&["mbr"]).contains("there is no group mbr"));
        assert!(refused(&["gpt", "wipe"]).contains("gpt has no verb wipe: show, free"));
        assert!(refused(&["gpt", "show"]).contains("DISK is missing"));
        assert!(refused(&["gpt", "repair", "a", "b"]).contains("b is one operand too many"));
        assert!(refused(&["help", "gpt", "add", "now"]).contains("now is one word too many"));
        assert!(refused(&["help", "gpt", "wipe"]).contains("gpt has no verb wipe"));
        assert!(refused(&["a\u{1b}[2J"]).contains("there is no group a\\u{1b}[2J"));
        assert!(refused(&["gpt", "show", "a", "--jsn"]).contains("there is no option --jsn"));
        assert!(refused(&["gpt", "show", "a", "--json", "--json"]).contains("--json stands twice"));
        assert!(refused(&["gpt", "show", "a", "--json=1"]).contains("--json takes no value"));
        assert!(refused(&["gpt", "add", "a", "--size"]).contains("--size needs SIZE"));
        assert!(refused(&["gpt", "add", "a"]).contains("--size SIZE is missing"));
    }
}
