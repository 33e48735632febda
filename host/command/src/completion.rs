//! The completion for bash.

use crate::verbs::{self, Verb, GROUPS};
use usigrambal::attributes::BIT_NAMES;
use usigrambal::Guid;

/// GROUPS, VERBS and OPTIONS stand for what the table of verbs says. Where the function offers nothing of its own, bash
/// goes on with the names of files.
const SCRIPT: &str = r#"# Completion of usigrambal for bash.
_usigrambal() {
    local word=${COMP_WORDS[COMP_CWORD]} before=${COMP_WORDS[COMP_CWORD - 1]}
    local group=${COMP_WORDS[1]} verb=${COMP_WORDS[2]} place=$COMP_CWORD words=
    if [ "$place" -gt 1 ] && [ "$group" = help ]; then
        group=$verb verb='' place=$((place - 1))
    fi
    case $place in
    1)
        words='GROUPS'
        [ "$COMP_CWORD" = 1 ] && words+=' help --help --version'
        ;;
    2)
        case $group in
VERBS        esac
        ;;
    *)
        case "$group $verb $before" in
OPTIONS        esac
        ;;
    esac
    compopt +o default 2>/dev/null
    mapfile -t COMPREPLY < <(compgen -W "$words" -- "$word")
}
complete -o default -F _usigrambal usigrambal
"#;

pub fn bash() -> String {
    let groups: Vec<&str> = GROUPS.iter().map(|(group, _)| *group).collect();
    let verbs: String = groups.iter().map(|group| verbs_of(group)).collect();
    let options: String = verbs::all().map(options_of).collect();
    SCRIPT.replace("GROUPS", &groups.join(" ")).replace("VERBS", &verbs).replace("OPTIONS", &options)
}

fn verbs_of(group: &str) -> String {
    let names: Vec<&str> = verbs::of_group(group).map(|verb| verb.name).collect();
    format!("        {group}) words='{} --help' ;;\n", names.join(" "))
}

/// The values of the verb's options, and then the options; a word that is neither is the name of a file.
fn options_of(verb: &Verb) -> String {
    let call = format!("{} {}", verb.group, verb.name);
    let mut cases = String::new();
    for choice in verb.options {
        let Some(value) = choice.value else { continue };
        let offered = match value {
            "FILE" => "return".to_string(),
            "TYPE" => format!("words='{}'", Guid::SHORT_NAMES.join(" ")),
            "BITS" => format!("words='{}'", BIT_NAMES.map(|(_, name)| name).join(" ")),
            listed if listed.contains('|') => format!("words='{}'", listed.replace('|', " ")),
            _ => "words=''".to_string(),
        };
        cases += &format!("        '{call} {}') {offered} ;;\n", choice.name);
    }
    let options: Vec<&str> = verb.options.iter().map(|choice| choice.name).chain(["--help"]).collect();
    let options = options.join(" ");
    cases
        + &format!("        '{call} '*)\n            [[ $word == -* ]] || return\n            words='{options}'\n            ;;\n")
}
