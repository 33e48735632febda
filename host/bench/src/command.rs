//! The rows of the command `usigrambal` beside the other commands for disks, each in a process of its own on an image in a file.

use crate::check;
use crate::disk::Disk;
use crate::gpt::Disks;
use crate::peers;
use crate::table::{Label, Table};
use crate::timed::{runs, Timed};
use std::fs::{self, File};
use std::path::PathBuf;
use std::process::{Command, Stdio};
use std::rc::Rc;
use testkit::disk::Scratch;
use testkit::strings;
use usigrambal::BlockSize;

const BLOCK: BlockSize = BlockSize::Bytes512;

/// The same work by each command.
struct Work<'a> {
    ours: Line,
    peers: Vec<Line>,
    disk: &'a Disk,
    /// How many partitions the table has: before, or where none is there, afterwards.
    partitions: usize,
    /// Whether the first block of each partition is printed.
    lists: bool,
}

/// A command's words, of which DISK stands for the image, and what it reads from standard input.
#[derive(Clone)]
struct Line {
    words: Vec<String>,
    input: String,
    /// As the table has it.
    shown: String,
}

impl Line {
    fn new(line: &str) -> Line {
        let words = line.split(' ').map(str::to_string).collect();
        Line { words, input: String::new(), shown: line.replace(" DISK", "") }
    }

    fn reads(self, input: impl Into<String>) -> Line {
        Line { input: input.into(), ..self }
    }

    fn shown(self, shown: &str) -> Line {
        Line { shown: shown.into(), ..self }
    }

    fn tool(&self) -> &str {
        &self.words[0]
    }
}

const PACKAGES: [(&str, &str); 3] = [("sgdisk", "gdisk"), ("sfdisk", "fdisk"), ("cgpt", "cgpt")];
const STARTS: u64 = 60;

fn works(disks: &Disks) -> [Work<'_>; 5] {
    let lines = |lines: &[&str]| lines.iter().copied().map(Line::new).collect();
    [
        Work {
            ours: Line::new("usigrambal gpt show DISK"),
            peers: lines(&["sgdisk -p DISK", "sfdisk -l DISK", "cgpt show DISK"]),
            disk: &disks.full,
            partitions: 128,
            lists: true,
        },
        Work {
            ours: Line::new("usigrambal gpt verify DISK"),
            peers: lines(&["sgdisk -v DISK", "sfdisk -V DISK"]),
            disk: &disks.full,
            partitions: 128,
            lists: false,
        },
        Work {
            ours: Line::new("usigrambal gpt add DISK --size 1 --align 1 --type linux"),
            // Only cgpt has to be told the block; it is the first that is free.
            peers: vec![
                Line::new("sgdisk -a 1 -n 0:0:+1 DISK"),
                Line::new("sfdisk --append DISK").reads(",1\n"),
                Line::new("cgpt add -b 36 -s 1 -t data DISK"),
            ],
            disk: &disks.room,
            partitions: 127,
            lists: false,
        },
        Work {
            ours: Line::new("usigrambal gpt repair DISK"),
            peers: lines(&["sgdisk -e DISK", "sfdisk --relocate gpt-bak-std DISK", "cgpt repair DISK"]),
            disk: &disks.broken,
            partitions: 128,
            lists: false,
        },
        builds(&disks.blank),
    ]
}

/// 128 partitions of one block each, from the first usable block on, all told beforehand.
fn builds(blank: &Disk) -> Work<'_> {
    let first = |number: usize| BLOCK.first_usable() + number as u64 - 1;
    let numbers = 1..=check::PARTITIONS;
    let option = |number: usize| {
        let (first, guid) = (first(number), strings::numbered_guid(number as u64));
        format!(" -n {number}:{first}:{first} -c {number}:p{number} -u {number}:{guid}")
    };
    let sgdisk = format!("sgdisk -a 1{} DISK", numbers.clone().map(option).collect::<String>());
    let row = |number: usize| {
        let (first, guid) = (first(number), strings::numbered_guid(number as u64));
        format!("start={first}, size=1, name=p{number}, uuid={guid}\n")
    };
    let script: String = numbers.map(row).collect();
    let script = format!("label: gpt\nfirst-lba: {}\n{script}", BLOCK.first_usable());
    Work {
        ours: Line::new("usigrambal gpt build DISK - --align 1")
            .reads(strings::many(check::PARTITIONS, BLOCK.bytes())),
        peers: vec![
            Line::new(&sgdisk).shown("sgdisk -a 1, 128 times -n -c -u"),
            Line::new("sfdisk DISK").reads(script).shown("sfdisk, 128 lines"),
        ],
        disk: blank,
        partitions: check::PARTITIONS,
        lists: false,
    }
}

pub fn rows<'a>(t: &mut Table<'a>, disks: &'a Disks) {
    if !command().is_file() {
        t.left_out.push("usigrambal (`make command` builds it)".into());
        return;
    }
    let mut there = Vec::new();
    for (tool, package) in PACKAGES {
        match peers::program(tool, package) {
            Ok(()) => there.push(tool),
            Err(why) => t.left_out.push(format!("usigrambal: {why}")),
        }
    }
    for work in works(disks) {
        let is_there = |line: &&Line| there.contains(&line.tool());
        work.peers.iter().filter(is_there).for_each(|line| row(t, &work, line));
    }
}

/// The seconds that a program takes which does nothing.
pub fn start_of_a_program() -> f64 {
    let run = || assert!(Command::new("true").status().is_ok_and(|status| status.success()), "true");
    runs(|| (), run)(STARTS)
}

/// The command as it is shipped.
fn command() -> PathBuf {
    testkit::host().join("../target/command/release/usigrambal")
}

fn row<'a>(t: &mut Table<'a>, work: &Work<'a>, peer: &Line) {
    let label = Label::new(&work.ours.shown, &peer.shown).size(format!("{} partitions", work.partitions));
    t.row(label.at_least(1.0), side(work, &work.ours), side(work, peer));
}

/// One side with an image of its own, restored before each run, once it was seen to do its work.
fn side<'a>(work: &Work<'a>, line: &Line) -> Timed<'a> {
    let run = Rc::new(Run { line: line.clone(), image: work.disk.image(), input: Scratch::new() });
    fs::write(&run.input.path, &line.input).expect("a file for the input");
    run.does_its_work(work);
    let (disk, same) = (work.disk, run.clone());
    runs(move || disk.write_to(&same.image.path), move || run.quietly())
}

struct Run {
    line: Line,
    image: Scratch,
    input: Scratch,
}

impl Run {
    fn command(&self) -> Command {
        let mut command = match self.line.tool() {
            "usigrambal" => Command::new(command()),
            tool => Command::new(tool),
        };
        for word in &self.line.words[1..] {
            match word.as_str() {
                "DISK" => command.arg(&self.image.path),
                word => command.arg(word),
            };
        }
        command.stdin(File::open(&self.input.path).expect("the input"));
        command
    }

    fn quietly(&self) {
        let mut command = self.command();
        let status = command.stdout(Stdio::null()).stderr(Stdio::null()).status().expect("it runs");
        assert!(status.success(), "{}: {status}", self.line.shown);
    }

    /// It succeeds, prints what it should, and leaves a good disk.
    fn does_its_work(&self, work: &Work) {
        let shown = &self.line.shown;
        let output = self.command().output().unwrap_or_else(|error| panic!("{shown}: {error}"));
        let said = String::from_utf8_lossy(&output.stdout);
        assert!(output.status.success(), "{shown}: {}\n{said}", output.status);
        check::disk_left(shown, &self.image.path);
        if work.lists {
            assert_eq!(not_listed(&said, &work.disk.firsts()), [], "{shown}\n{said}");
        }
    }
}

/// The numbers that are no word of the text.
fn not_listed(text: &str, numbers: &[u64]) -> Vec<u64> {
    let words: Vec<&str> = text.split_whitespace().collect();
    numbers.iter().copied().filter(|number| !words.contains(&number.to_string().as_str())).collect()
}

#[cfg(test)]
mod tests {
    use super::not_listed;

    #[test]
    fn a_number_is_listed_as_a_word_of_its_own() {
        assert_eq!(not_listed("  1   34   35\n  2  137 200\n", &[34, 37, 137]), [37]);
    }
}
