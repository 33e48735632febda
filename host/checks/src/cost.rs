//! What each crate's check costs: processor seconds, as .ci/watch left them in target/log/NAME.cpu. What an earlier run proved, `rt ci` does not check again.

use std::collections::BTreeSet;

/// Processor seconds that the check of a crate with must-fail edits may take.
pub const MOST: u64 = 50;

/// Those of a crate without, as a program, whose check ends in two builds, by two compilers: nothing repeats it.
pub const MOST_ALONE: u64 = 90;

/// All of them in one line, the dearest first; then the crates that take more than they may.
pub fn told(costs: &[(String, u64)], has_edits: &dyn Fn(&str) -> bool) -> (String, Vec<String>) {
    let mut order: Vec<&(String, u64)> = costs.iter().collect();
    order.sort_by(|a, b| b.1.cmp(&a.1).then(a.0.cmp(&b.0)));
    let line = order.iter().map(|(name, cost)| format!("{name} {cost}")).collect::<Vec<_>>().join(", ");
    let most = |name: &str| if has_edits(name) { MOST } else { MOST_ALONE };
    let fault = |name: &str, cost: u64| {
        let most = most(name);
        let said = format!("{name}: its check takes {cost} processor seconds, and {most} are the most: make two crates of it");
        (cost > most).then_some(said)
    };
    (line, order.iter().filter_map(|(name, cost)| fault(name, *cost)).collect())
}

/// The crates that an earlier run proved, as `rt ci` says: `rt: NAME is kept: ..`.
pub fn kept(output: &str) -> BTreeSet<&str> {
    let name = |line: &'_ str| {
        let (name, _) = line.strip_prefix("rt: ")?.split_once(" is kept: ")?;
        Some(name.len())
    };
    output.lines().filter_map(|line| Some(&line["rt: ".len()..][..name(line)?])).collect()
}

#[cfg(test)]
mod tests {
    use super::*;

    #[test]
    fn tells_the_dearest_first_and_those_over_the_bound() {
        let costs = [
            ("low", 14),
            ("edge", MOST),
            ("high", MOST + 1),
            ("runs", MOST_ALONE),
            ("waits", MOST_ALONE + 1),
        ]
        .map(|(name, cost)| (name.to_string(), cost));
        let has_edits = |name: &str| name != "runs" && name != "waits";
        let (line, faults) = told(&costs, &has_edits);
        assert_eq!(line, "waits 91, runs 90, high 51, edge 50, low 14");
        assert_eq!(
            faults,
            [
                "waits: its check takes 91 processor seconds, and 90 are the most: make two crates of it",
                "high: its check takes 51 processor seconds, and 50 are the most: make two crates of it"
            ]
        );
        assert!(told(&costs[..2], &has_edits).1.is_empty());
    }

    #[test]
    fn reads_what_was_kept() {
        let output = "rt: a is kept: an earlier run on this machine proved the same files\nrt: b proved\n== a is kept: c\n";
        assert_eq!(kept(output).into_iter().collect::<Vec<_>>(), ["a"]);
    }
}
