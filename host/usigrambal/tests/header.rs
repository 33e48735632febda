//! include/usigrambal.h and the wrapper say the same: names, numbers and words of the refusals, rules, and the version.

use usigrambal::flash::Rule;
use usigrambal::{AttributeRule, Refusal};

const HEADER: &str = include_str!("../../../include/usigrambal.h");

/// A refusal's name as the header has it: `NoRoom` is `USI_NO_ROOM`.
fn c_name(refusal: Refusal) -> String {
    c_name_of("USI", &format!("{refusal:?}"))
}

fn c_name_of(prefix: &str, case: &str) -> String {
    let mut name = String::from(prefix);
    for letter in case.chars() {
        if letter.is_uppercase() {
            name.push('_');
        }
        name.extend(letter.to_uppercase());
    }
    name
}

/// The lines between the two, without the commas that end them.
fn between(first: &str, last: &str) -> Vec<&'static str> {
    let (_, rest) = HEADER.split_once(first).expect(first);
    let (lines, _) = rest.split_once(last).expect(last);
    lines.lines().map(|line| line.trim().trim_end_matches(',')).filter(|line| !line.is_empty()).collect()
}

#[test]
fn names_and_numbers_are_the_same() {
    let of = |refusal: &Refusal| format!("{} = {}", c_name(*refusal), refusal.number());
    let expected: Vec<String> =
        [String::from("USI_ACCEPTED = 0")].into_iter().chain(Refusal::ALL.iter().map(of)).collect();
    assert_eq!(between("enum usi_answer {", "};"), expected);
}

#[test]
fn words_are_the_same() {
    let of = |refusal: &Refusal| format!("case {}: return \"{}\";", c_name(*refusal), refusal.words());
    let expected: Vec<String> = Refusal::ALL.iter().map(of).collect();
    assert_eq!(between("case USI_ACCEPTED: return \"accepted\";", "default:"), expected);
}

#[test]
fn rules_of_a_map_are_the_same() {
    let name = |rule: &Rule| c_name_of("USI_RULE", &format!("{rule:?}"));
    let of = |rule: &Rule| format!("{} = {}", name(rule), rule.number());
    let expected: Vec<String> =
        [String::from("USI_RULE_NONE = 0")].into_iter().chain(Rule::ALL.iter().map(of)).collect();
    assert_eq!(between("enum usi_rule {", "};"), expected);
    let of = |rule: &Rule| format!("case {}: return \"{}\";", name(rule), rule.words());
    let expected: Vec<String> = Rule::ALL.iter().map(of).collect();
    assert_eq!(between("case USI_RULE_NONE: return \"a good map\";", "default:"), expected);
}

#[test]
fn rules_of_attribute_bits_are_the_same() {
    let mask = |rule: AttributeRule| rule.zero_bits().fold(0_u64, |mask, bit| mask | 1 << bit);
    let of = |rule: AttributeRule| {
        format!("#define {} {}", c_name_of("USI", &format!("{rule:?}Rule")), rule.number())
    };
    let [present, earlier] = AttributeRule::ALL.map(|rule| format!("UINT64_C({:#018X})", mask(rule)));
    let chosen = format!("{present} : {earlier})").replace("0X", "0x");
    let expected = AttributeRule::ALL.map(of);
    let lines = between("are the bits that offend. */", "/* The states");
    assert_eq!(lines[..2], expected);
    assert_eq!(lines[2], format!("#define USI_ZERO_BITS(rule) ((rule) == USI_PRESENT_RULE ? {chosen}"));
}

#[test]
fn the_version_is_the_same() {
    assert!(HEADER.contains(concat!("#define USI_VERSION \"", env!("CARGO_PKG_VERSION"), "\"\n")));
}
