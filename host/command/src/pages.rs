//! The man pages, from the texts of the help, and the completion for bash: `usigrambal --page` names them, and
//! `usigrambal --page NAME` prints one.

use crate::completion;
use crate::help;
use crate::verbs::{self, Verb, GROUPS};

const COMPLETION: &str = "usigrambal.bash";

/// The pages' names, one a line.
pub fn names() -> String {
    let groups = GROUPS.iter().map(|(group, _)| format!("usigrambal-{group}.1\n"));
    ["usigrambal.1\n".to_string()].into_iter().chain(groups).collect::<String>() + COMPLETION + "\n"
}

/// The page of that name, if there is one.
pub fn page(name: &str) -> Option<String> {
    if name == COMPLETION {
        return Some(completion::bash());
    }
    match name.strip_prefix("usigrambal")?.strip_suffix(".1")? {
        "" => Some(whole()),
        group => GROUPS.iter().find(|(name, _)| group.strip_prefix('-') == Some(name)).map(of_group),
    }
}

/// The page of the whole command.
fn whole() -> String {
    let mut page = heading("usigrambal", help::ABOUT);
    page += &synopsis(verbs::all());
    page += ".SH DESCRIPTION\n";
    for (group, about) in GROUPS {
        page += &format!(".TP\n.BR usigrambal\\-{group} (1)\n{}\n", text(about));
    }
    page + ".PP\n" + &paragraphs(help::SIZES) + &status() + &see_also("usigrambal")
}

/// The page of a group: each of its verbs with its options and examples.
fn of_group((group, about): &(&str, &str)) -> String {
    let name = format!("usigrambal-{group}");
    let mut page = heading(&name, about) + &synopsis(verbs::of_group(group));
    page += ".SH DESCRIPTION\n";
    verbs::of_group(group).for_each(|verb| page += &of_verb(verb));
    page += ".SH NOTES\n";
    page + &paragraphs(help::SIZES) + &status() + &see_also(&name)
}

fn of_verb(verb: &Verb) -> String {
    let mut part = format!(".SS {} {}\n{}\n", verb.group, verb.name, text(verb.about));
    for choice in verb.options {
        let value = choice.value.map_or(String::new(), |value| format!(" \\fI{}\\fP", text(value)));
        part += &format!(".TP\n\\fB{}\\fP{value}\n{}\n", text(choice.name), text(choice.about));
    }
    part += ".PP\n.RS\n.nf\n";
    verb.examples.iter().for_each(|example| part += &format!("{}\n", text(example)));
    part + ".fi\n.RE\n"
}

fn heading(name: &str, about: &str) -> String {
    let version = env!("CARGO_PKG_VERSION");
    let title = text(&name.to_uppercase());
    format!(
        ".TH {title} 1 \"\" \"usigrambal {version}\" \"User Commands\"\n.SH NAME\n{} \\- {}\n",
        text(name),
        text(about)
    )
}

/// How each verb is called, the lines after the first indented.
fn synopsis<'a>(verbs: impl Iterator<Item = &'a Verb>) -> String {
    verbs.fold(".SH SYNOPSIS\n".to_string(), |all, verb| {
        let usage = help::usage(verb);
        let call = format!("usigrambal {} {}", verb.group, verb.name);
        all + &format!(".HP 4\n\\fB{}\\fP{}\n", text(&call), text(&usage[call.len()..]))
    })
}

/// Lines that begin with a blank belong to the paragraph before.
fn paragraphs(lines: &str) -> String {
    let mut all = String::new();
    for line in lines.lines() {
        if !line.starts_with(' ') && !all.is_empty() {
            all += ".PP\n";
        }
        all += &format!("{}\n", text(line.trim_start()));
    }
    all
}

fn status() -> String {
    let (_, words) = help::STATUS.split_once(": ").expect("the heading of the text");
    format!(".SH EXIT STATUS\n{}", paragraphs(words))
}

fn see_also(own: &str) -> String {
    let names = ["usigrambal".to_string()]
        .into_iter()
        .chain(GROUPS.iter().map(|(group, _)| format!("usigrambal-{group}")));
    let others: Vec<String> =
        names.filter(|name| name != own).map(|name| format!("\\fB{}\\fP(1)", text(&name))).collect();
    format!(".SH SEE ALSO\n{}\n", others.join(",\n"))
}

/// A line of words as roff has them.
fn text(words: &str) -> String {
    let escaped = words.replace('\\', "\\e").replace('-', "\\-");
    if escaped.starts_with(['.', '\'']) {
        return format!("\\&{escaped}");
    }
    escaped
}

#[cfg(test)]
mod tests {
    use super::*;

    /// The words of a page, without what roff adds.
    fn words(page: &str) -> String {
        let words = page.replace("\\fB", "").replace("\\fI", "").replace("\\fP", "").replace("\\&", "");
        words.replace("\\-", "-").replace("\\e", "\\")
    }

    #[test]
    fn every_name_has_a_page() {
        let pages: Vec<_> = names().lines().map(|name| page(name).expect("a page")).collect();
        assert_eq!(pages.len(), GROUPS.len() + 2);
        assert!(page("usigrambal-.1").is_none() && page("usigrambalgpt.1").is_none() && page("").is_none());
    }

    #[test]
    fn a_page_says_what_the_help_says() {
        let whole = words(&page("usigrambal.1").expect("a page"));
        for verb in verbs::all() {
            let page = words(&page(&format!("usigrambal-{}.1", verb.group)).expect("a page"));
            assert!(page.contains(&help::usage(verb)) && whole.contains(&help::usage(verb)));
            let told = [verb.about].into_iter().chain(verb.examples.iter().copied());
            let told = told.chain(verb.options.iter().flat_map(|choice| [choice.name, choice.about]));
            told.for_each(|words| assert!(page.contains(words), "{words}"));
        }
    }

    #[test]
    fn roff_takes_a_line_as_words() {
        assert_eq!(text(".a - \\b"), "\\&.a \\- \\eb");
    }
}
