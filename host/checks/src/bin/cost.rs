//! Prints what the check of each crate cost, and fails where one is over the bound, or where a crate was neither watched nor kept from an earlier run.
//!
//! usage, from the repository's root: cost

use checks::cost::{kept, told};
use checks::crates::Crates;
use checks::{files, read, settle};
use std::fs;
use std::path::Path;

fn main() {
    let output = read("target/log/ci");
    let kept = kept(&output);
    let names = Crates::read(Path::new(".")).names;
    let seconds = |name: &String| {
        let text = fs::read_to_string(format!("target/log/{name}.cpu")).ok()?;
        Some((name.clone(), text.trim().parse().ok()?))
    };
    let costs: Vec<(String, u64)> = names.iter().filter_map(seconds).collect();
    let has_edits = |name: &str| !files(format!("crates/{name}/must-fail"), &["edit"]).is_empty();
    let (line, mut faults) = told(&costs, &has_edits);
    println!("{line}");
    let unmeasured = names.iter().filter(|name| !costs.iter().any(|one| one.0 == **name));
    let (again, lost): (Vec<_>, Vec<_>) = unmeasured.partition(|name| kept.contains(name.as_str()));
    for name in lost {
        faults.push(format!("{name}: target/log has no processor seconds of it: .ci/run watches the checks"));
    }
    let sum: u64 = costs.iter().map(|one| one.1).sum();
    let again = again.len();
    settle(
        &faults,
        &format!("{} crates checked in {sum} processor seconds, {again} kept from earlier runs", costs.len()),
    );
}
