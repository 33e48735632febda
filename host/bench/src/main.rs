//! Prints one table: how many times as fast as its peers the library is.

mod bytes;
mod check;
mod command;
mod disk;
mod fdisk;
mod flash;
mod gpt;
mod layout;
mod library;
mod machine;
mod ours;
mod peers;
mod print;
mod table;
mod timed;
mod work;

use gpt::Disks;
use table::{Row, Table, ROUNDS};

const USAGE: &str = "bench [--markdown] [--peers] [--commands] [--quick] [--only WORDS]
  --markdown  the table in Markdown
  --peers     only the rows beside other programs and libraries, not those of inner functions and of growing inputs
  --commands  only the rows of the command beside other commands
  --quick     one round, which shows that every row can be measured and no more
  --only      only the rows with these words in their first column";

const OPTIONS: [&str; 4] = ["--markdown", "--peers", "--commands", "--quick"];

fn main() {
    let mut words: Vec<String> = std::env::args().skip(1).collect();
    let only = words.iter().position(|word| word == "--only").filter(|at| at + 1 < words.len());
    let only = only.map(|at| words.drain(at..at + 2).nth(1).expect("two words"));
    if let Some(word) = words.iter().find(|word| !OPTIONS.contains(&word.as_str())) {
        eprintln!("{word}: no such option\n{USAGE}");
        std::process::exit(2);
    }
    let given = |word: &str| words.iter().any(|other| other == word);
    // All files in memory, so that no disk is in the measure.
    std::env::set_var("TMPDIR", "/dev/shm");
    let disks = Disks::new();
    let mut table = Table::with(only);
    if given("--commands") {
        command::rows(&mut table, &disks);
    } else {
        peer_rows(&mut table, &disks);
    }
    if !given("--peers") && !given("--commands") {
        bound_rows(&mut table, &disks);
    }
    let left_out = std::mem::take(&mut table.left_out);
    let rounds = if given("--quick") { 1 } else { ROUNDS };
    let print = if given("--markdown") { print::markdown } else { print::text };
    report(&table.measured(rounds), rounds, &left_out, print);
}

/// What a user would take instead.
fn peer_rows<'a>(t: &mut Table<'a>, disks: &'a Disks) {
    bytes::crc_rows(t);
    fdisk::rows(t, disks);
    flash::rows(t);
    layout::rows(t);
    command::rows(t, disks);
}

/// Inner functions, bounds in units, growing inputs.
fn bound_rows<'a>(t: &mut Table<'a>, disks: &'a Disks) {
    gpt::rows(t, disks);
    flash::bounds(t);
    layout::bounds(t);
    bytes::octets_rows(t);
}

fn report(rows: &[Row], rounds: usize, left_out: &[String], print: fn(&[Row]) -> String) {
    println!("{}", machine::line());
    println!("Processor time, best of {rounds}. The ratio says how many times as fast as the peer ours is.");
    let start = print::time(command::start_of_a_program());
    println!("A program's time has its start in it; that of `true`, which does nothing, takes {start}.\n");
    println!("{}", print(rows));
    for what in left_out {
        println!("left out: {what}");
    }
}
