//! What `--help` and `--version` print.

use crate::verbs::{self, Verb, GROUPS};

const WIDTH: usize = 100;

pub const ABOUT: &str = "flash layouts, flash maps and GPT disks";

pub const SIZES: &str = "\
SIZE: a bare number is blocks of the disk; with B, K, M, G or T (KiB, MiB ...: powers of 1,024) it is bytes,
      which must be whole blocks. Numbers are decimal, or 0x and hex digits.
DISK, IMAGE: a file or a block device. Of a disk only the first 34 and the last 33 blocks are read and written
      (6 and 5 where they have 4096 bytes), the backup copy first. A device has its own block size, a file that of
      --block. Several disks in one call are answered in turn; the exit status is the largest.
-- ends the options, so that a name may begin with -.
";

pub const STATUS: &str = "\
Exit status: 0 done; 1 refused (`refused NUMBER: FILE: words` on standard error), or a check found something;
      2 usage; 3 input and output; 4 in use, or something is there that needs a word (--force, --replace, --retire).
";

pub fn version() -> String {
    format!("usigrambal {}\n", env!("CARGO_PKG_VERSION"))
}

pub fn command() -> String {
    let mut text = format!("usigrambal: {ABOUT}\n\n");
    for (group, about) in GROUPS {
        text += &format!("{group}: {about}\n");
        text += &usages(group);
        text += "\n";
    }
    text += &format!("{SIZES}\n{STATUS}");
    text += "\nusigrambal help GROUP VERB tells the options of a verb, with examples:\n";
    text + &examples(verbs::all().filter(|verb| ["write", "show", "add"].contains(&verb.name)))
}

pub fn group(group: &str) -> String {
    let about = GROUPS.iter().find(|(name, _)| *name == group).map_or("", |(_, about)| about);
    let examples = examples(verbs::of_group(group));
    format!("usigrambal {group}: {about}\n\n{}\nExamples:\n{examples}\n{STATUS}", usages(group))
}

pub fn verb(verb: &Verb) -> String {
    let mut text = format!("Usage: {}\n\n{}\n", wrapped(&usage(verb), 6), wrapped(verb.about, 0));
    let choices: Vec<(String, &str)> = verb
        .options
        .iter()
        .map(|choice| (with_value(choice.name, choice.value), choice.about))
        .chain([("--help".to_string(), "print this")])
        .collect();
    let width = choices.iter().map(|(name, _)| name.len()).max().unwrap_or(0);
    text += "\nOptions:\n";
    for (name, about) in choices {
        text += &format!("  {name:width$}  {about}\n");
    }
    text += &format!("\nExamples:\n{}", examples([verb]));
    if verb.operands.contains(&"SIZE") || verb.options.iter().any(|choice| choice.value == Some("SIZE")) {
        text += &format!("\n{SIZES}");
    }
    text + "\n" + STATUS
}

fn usages(group: &str) -> String {
    verbs::of_group(group).map(|verb| format!("  {}\n", wrapped(&usage(verb), 6))).collect()
}

/// How a verb is called, in one line.
pub fn usage(verb: &Verb) -> String {
    let mut words = vec!["usigrambal".to_string(), verb.group.into(), verb.name.into()];
    words.extend(verb.operands.iter().map(|name| name.to_string()));
    for (place, choice) in verb.options.iter().enumerate() {
        let word = with_value(choice.name, choice.value);
        words.push(if place < verb.required { word } else { format!("[{word}]") });
    }
    words.join(" ")
}

fn with_value(name: &str, value: Option<&str>) -> String {
    value.map_or(name.to_string(), |value| format!("{name} {value}"))
}

fn examples<'a>(verbs: impl IntoIterator<Item = &'a Verb>) -> String {
    verbs.into_iter().flat_map(|verb| verb.examples).map(|example| format!("  {example}\n")).collect()
}

/// Lines of at most WIDTH columns; those that follow are indented. An option in brackets stays whole.
fn wrapped(text: &str, indent: usize) -> String {
    let mut lines = vec![String::new()];
    for word in text.split(' ').fold(Vec::new(), whole) {
        let line = lines.last_mut().expect("a line");
        if line.is_empty() {
            *line = word;
        } else if line.len() + 1 + word.len() > WIDTH {
            lines.push(format!("{:indent$}{word}", ""));
        } else {
            line.push(' ');
            line.push_str(&word);
        }
    }
    lines.join("\n")
}

/// Puts the words of a bracketed option together again.
fn whole(mut words: Vec<String>, word: &str) -> Vec<String> {
    match words.last_mut() {
        Some(open) if open.starts_with('[') && !open.ends_with(']') => {
            open.push(' ');
            open.push_str(word);
        }
        _ => words.push(word.to_string()),
    }
    words
}

#[cfg(test)]
mod tests {
    use super::*;

    #[test]
    fn every_verb_tells_its_options_and_an_example_of_itself() {
        for verb in verbs::all() {
            let text = super::verb(verb);
            let call = format!("usigrambal {} {}", verb.group, verb.name);
            assert!(verb.examples.iter().any(|example| example.contains(&call)), "{call}");
            assert!(verb.options.iter().all(|choice| text.contains(choice.name)), "{text}");
            assert!(command().contains(&call) && group(verb.group).contains(&call), "{call}");
        }
    }

    #[test]
    fn lines_fit() {
        let all = verbs::all().map(verb).chain([command()]).chain(GROUPS.iter().map(|(name, _)| group(name)));
        for line in all.flat_map(|text| text.lines().map(str::to_string).collect::<Vec<_>>()) {
            assert!(line.len() <= 116, "{line}");
        }
    }

    #[test]
    fn wrapping() {
        let text = format!("{} {} [--size SIZE]", "a".repeat(60), "b".repeat(30));
        let expected = format!("{} {}\n  [--size SIZE]", "a".repeat(60), "b".repeat(30));
        assert_eq!(wrapped(&text, 2), expected);
    }
}
