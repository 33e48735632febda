//! Compares the library with the second implementation: the answers of each call and every byte of
//! every lent buffer after it.
//!
//! `differential` runs the comparison; `differential --self-test` runs it against wrong variants of
//! the second implementation and demands that it reports each; `--seed N` sets the random inputs.

mod crc;
mod fmap;
mod fmd;
mod gpt;
mod guid;
mod number;
mod run;
mod strings;
mod topic;

use run::{Difference, Run};
use second::{Rules, RULES};
use std::process::ExitCode;
use topic::{Topic, Variant};

const SEED: u64 = 0x5551_4752_414D_4241;

const TOPICS: &[Topic] = &[guid::TOPIC, crc::TOPIC, gpt::TOPIC, strings::TOPIC, fmap::TOPIC, fmd::TOPIC];

fn main() -> ExitCode {
    let Some((self_test, seed)) = options() else {
        eprintln!("usage: differential [--self-test] [--seed N]");
        return ExitCode::from(2);
    };
    let good = compare_all(seed) && (!self_test || notices_all(seed));
    if good {
        return ExitCode::SUCCESS;
    }
    println!("seed {seed}");
    ExitCode::FAILURE
}

fn options() -> Option<(bool, u64)> {
    let (mut self_test, mut seed) = (false, SEED);
    let mut words = std::env::args().skip(1);
    while let Some(word) = words.next() {
        match word.as_str() {
            "--self-test" => self_test = true,
            "--seed" => seed = words.next()?.parse().ok()?,
            _ => return None,
        }
    }
    Some((self_test, seed))
}

/// Compares by the right rules, in every part, and says whether all was the same and enough.
fn compare_all(seed: u64) -> bool {
    let mut run = Run::new(&RULES, seed);
    let good = TOPICS.iter().filter(|topic| compare_topic(&mut run, topic)).count() == TOPICS.len();
    let empty = print_table(&run);
    println!("differential: {} comparisons, {empty} empty cells", run.made);
    good && empty == 0
}

fn compare_topic(run: &mut Run, topic: &Topic) -> bool {
    let mut differences = 0;
    for (part, compare) in topic.parts {
        let before = run.made;
        let outcome = compare(run);
        println!("{part}: {} comparisons", run.made - before);
        if let Err(difference) = outcome {
            println!("DIFFERENCE: {difference}");
            differences += 1;
        }
    }
    let (calls, times) = topic.at_least;
    let enough = run.compared(calls) >= times;
    if !enough {
        println!("UNTESTED: {calls} compared {} times, not {times}", run.compared(calls));
    }
    differences == 0 && enough
}

/// Prints how often each call was seen to do what it must; answers how many cells are empty.
fn print_table(run: &Run) -> usize {
    let mut empty = 0;
    for (call, groups) in TOPICS.iter().flat_map(|topic| topic.cells) {
        let cells = groups.iter().copied().flatten();
        let times: Vec<_> = cells.map(|cell| (cell, run.times(call, *cell))).collect();
        let words: Vec<_> = times.iter().map(|(cell, times)| format!("{cell}: {times}")).collect();
        println!("{call}: {}", words.join(", "));
        for (cell, _) in times.iter().filter(|(_, times)| *times == 0) {
            println!("UNTESTED: {call}, {cell}");
            empty += 1;
        }
    }
    empty
}

/// Says whether the comparison reports every wrong variant. It is run after the right rules showed
/// no difference, without which a report would mean nothing.
fn notices_all(seed: u64) -> bool {
    TOPICS.iter().map(|topic| notices_each(topic, seed)).filter(|good| !good).count() == 0
}

fn notices_each(topic: &Topic, seed: u64) -> bool {
    let variants = (topic.variants)();
    let unnoticed = variants.iter().filter(|variant| !notices(topic, variant, seed)).count();
    let unbroken: Vec<_> =
        topic.rules_to_break.iter().filter(|rule| !variants.iter().any(|v| v.rule == **rule)).collect();
    for rule in &unbroken {
        println!("UNTESTED: no variant breaks {rule}");
    }
    println!("self-test: {} wrong variants, {unnoticed} unnoticed", variants.len());
    unnoticed == 0 && unbroken.is_empty()
}

fn notices(topic: &Topic, variant: &Variant, seed: u64) -> bool {
    let Variant { name, rule, rules } = variant;
    let found = first_difference(topic, rules, seed);
    match &found {
        Some(difference) => println!("{name} ({rule}): {difference}"),
        None => println!("UNNOTICED: {name} ({rule})"),
    }
    found.is_some()
}

fn first_difference(topic: &Topic, rules: &Rules, seed: u64) -> Option<Difference> {
    let mut run = Run::new(rules, seed);
    topic.parts.iter().find_map(|(_, compare)| compare(&mut run).err())
}
