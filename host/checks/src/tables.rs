//! The lists that stand once: the crates in crates.txt, what each is in docs/ARCHITECTURE.md, the rules in docs/TRACE.md.

/// The crates, lowest first; behind a name may stand what kind of crate it is.
pub fn crates(list: &str) -> Vec<String> {
    let lines = list.lines().filter(|line| !line.starts_with('#'));
    lines.filter_map(|line| Some(line.split_once(':')?.0.split_whitespace().next()?.to_string())).collect()
}

/// The cells of a table's row; nothing for other text.
pub fn cells(line: &str) -> Option<Vec<&str>> {
    Some(line.strip_prefix("| ")?.strip_suffix(" |")?.split(" | ").map(str::trim).collect())
}

/// The rows of the table of crates: name, and whether its column `callable` says yes.
pub fn described(architecture: &str) -> Vec<(String, bool)> {
    let rows = architecture.lines().skip_while(|line| !line.ends_with("| callable |")).skip(2);
    rows.map_while(cells)
        .filter_map(|row| {
            Some((row[0].strip_prefix('`')?.strip_suffix('`')?.to_string(), *row.last()? == "yes"))
        })
        .collect()
}

/// A rule's number: a letter and digits. A small letter is that of a change which was asked for later.
pub fn is_number(word: &str) -> bool {
    let (letter, digits) = word.split_at(word.len().min(1));
    letter.bytes().all(|b| b.is_ascii_alphabetic())
        && !digits.is_empty()
        && digits.bytes().all(|b| b.is_ascii_digit())
}

/// The rules of docs/TRACE.md: number and sentence, as in the table's first two columns.
pub fn rules(trace: &str) -> Vec<(&str, &str)> {
    let rows = trace.lines().filter_map(cells).filter(|row| row.len() > 1 && is_number(row[0]));
    rows.map(|row| (row[0], row[1])).collect()
}

#[cfg(test)]
mod tests {
    use super::*;

    #[test]
    fn reads_the_tables() {
        assert_eq!(crates("# NAME: imports\na:\nb: a\nc staticlib: a b\n"), ["a", "b", "c"]);
        let table = "x\n| crate | says | callable |\n|---|---|---|\n| `a` | b | no (inner) |\n| `c` | d | yes |\n\n| `e` | f | yes |\n";
        assert_eq!(described(table), [("a".to_string(), false), ("c".to_string(), true)]);
        let table =
            "| No. | Sentence |\n|---|---|\n| E1 | Wrong. | x |\n| l7 | 6. | x |\n| `W9` | no rule | x |\n";
        assert_eq!(rules(table), [("E1", "Wrong."), ("l7", "6.")]);
    }
}
