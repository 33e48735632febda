//! The rows of the layout language: 128 sections, listed by our program `fmd_list` and compiled by fmaptool, each in a
//! process of its own; the same text read in this process, beside the second implementation, as fmaptool is no library;
//! and texts of growing length.

use crate::peers;
use crate::table::{Label, Table};
use crate::timed::{calls, runs};
use crate::work::of;
use second::{fmd_records, RULES};
use std::fs::{self, File};
use std::hint::black_box;
use std::path::PathBuf;
use std::process::{Command, Stdio};
use std::rc::Rc;
use testkit::disk::Scratch;
use testkit::fmaptool;
use usigrambal::raw;

const SECTIONS: usize = 128;
const HEADER_LEN: usize = 56;
const AREA_LEN: usize = 42;

pub fn rows(t: &mut Table) {
    records_row(t);
    match Programs::ready() {
        Ok(programs) => list_row(t, Rc::new(programs)),
        Err(why) => t.left_out.push(format!("fmd_list: {why}")),
    }
}

fn list_row(t: &mut Table, programs: Rc<Programs>) {
    let label = Label::new("fmd_list", "fmaptool").size("128 sections").at_least(1.15);
    let same = programs.clone();
    t.row(label, runs(|| (), move || programs.list()), runs(|| (), move || same.compile()));
}

/// The text read into the lent records.
fn records_row(t: &mut Table) {
    let text: &'static [u8] = text().into_bytes().leak();
    let ours = |text: &[u8], records: &mut [u8]| records_of(|count| raw::fmd_records(text, records, count));
    let second =
        |text: &[u8], records: &mut [u8]| records_of(|count| fmd_records(&RULES, text, records, count));
    let label = Label::new("fmd records", "second implementation").size("128 sections").at_least(1.0);
    t.row(label, calls(over(text, ours)), calls(over(text, second)));
}

/// A call on the text and on records of its own.
fn over<A>(text: &'static [u8], call: impl Fn(&[u8], &mut [u8]) -> A) -> impl FnMut() -> A {
    let mut records = vec![0; raw::RECORDS * raw::RECORD_LEN];
    move || call(black_box(text), black_box(&mut records))
}

fn records_of(call: impl FnOnce(&mut u64) -> u32) -> u64 {
    let mut count = 0;
    assert_eq!(call(&mut count), 0);
    assert_eq!(count, SECTIONS as u64);
    count
}

/// Both programs, with the same text in a file.
struct Programs {
    list: PathBuf,
    text: Scratch,
    map: Scratch,
}

impl Programs {
    /// Both are there and say the same of the text; or what is missing.
    fn ready() -> Result<Programs, String> {
        let list = testkit::host().join("../crates/fmd_list/out/fmd_list");
        if !list.is_file() {
            return Err("crates/fmd_list/out/fmd_list (`rt run` in crates/fmd_list builds it)".into());
        }
        peers::program(fmaptool::TOOL, fmaptool::PACKAGE)?;
        let programs = Programs { list, text: Scratch::new(), map: Scratch::new() };
        fs::write(&programs.text.path, text()).expect("a file for the text");
        programs.compile();
        let map = fs::read(&programs.map.path).expect("the map that fmaptool wrote");
        assert_eq!(programs.listed(), sections(&map), "fmd_list and fmaptool differ");
        assert_eq!(programs.listed().len(), SECTIONS);
        Ok(programs)
    }

    fn lister(&self) -> Command {
        let mut command = Command::new(&self.list);
        command.stdin(File::open(&self.text.path).expect("the text"));
        command
    }

    fn list(&self) {
        let status = self.lister().stdout(Stdio::null()).status().expect("fmd_list runs");
        assert!(status.success(), "fmd_list: {status}");
    }

    fn compile(&self) {
        let mut command = Command::new(fmaptool::TOOL);
        command.arg(&self.text.path).arg(&self.map.path).stdout(Stdio::null()).stderr(Stdio::null());
        let status = command.status().expect("fmaptool runs");
        assert!(status.success(), "fmaptool: {status}");
    }

    /// The lines of the sections.
    fn listed(&self) -> Vec<String> {
        let output = self.lister().output().expect("fmd_list runs");
        let lines = String::from_utf8(output.stdout).expect("lines of ASCII");
        lines.lines().skip(1).map(str::to_string).collect()
    }
}

/// What a listing says of the areas of a map.
fn sections(map: &[u8]) -> Vec<String> {
    let number = |bytes: &[u8]| bytes.iter().rev().fold(0, |value, byte| value << 8 | u64::from(*byte));
    let section = |area: &[u8]| {
        let name: String =
            area[8..40].iter().take_while(|byte| **byte != 0).map(|b| char::from(*b)).collect();
        format!("{:08x} {:08x} {:04x} {name}", number(&area[..4]), number(&area[4..8]), number(&area[40..]))
    };
    map[HEADER_LEN..].chunks(AREA_LEN).map(section).collect()
}

/// 128 sections on three levels, with a leaf COREBOOT(CBFS), which fmaptool demands.
fn text() -> String {
    let parent = |p: usize| {
        let child = |c: usize| format!("    RW_{p}_{c}(PRESERVE)@{:#x} {} # kept\n", 0x1000 * c, 2048);
        let children: String = (0..13).map(child).collect();
        format!("  PART_{p} 64K {{\n{children}  }}\n")
    };
    let parents: String = (0..9).map(parent).collect();
    format!("CHIP@0xff000000 16M {{\n  FMAP 8K\n  COREBOOT(CBFS) 1M\n{parents}}}\n")
}

/// A row for a text of 16 and of 32 KiB, with the one of 8 KiB as its unit, for two ways to grow: 128 sections with
/// longer comments, and more sections. Linear is twice and four times as long.
pub fn bounds(t: &mut Table) {
    for (kib, most) in [(16, 2.5), (32, 5.0)] {
        let longer = |kib: usize| long_text(SECTIONS, kib * 1024);
        let more = |kib: usize| long_text(4 * kib, kib * 1024);
        growing_row(t, ("fmd read, 128 sections", longer(kib), longer(8)), most);
        growing_row(t, ("fmd read, 4 sections a KiB", more(kib), more(8)), most);
    }
}

fn growing_row(t: &mut Table, (what, text, unit): (&str, &'static [u8], &'static [u8]), most: f64) {
    let label = Label::new(what, "itself on 8 KiB").bytes(text.len()).at_most_units(most);
    t.row(label, calls(of(text, read)), calls(of(unit, read)));
}

/// So many sections in exactly so many bytes.
fn long_text(sections: usize, len: usize) -> &'static [u8] {
    let each = (len - 40) / sections;
    let mut text = b"CHIP 64K{FMAP 8K\n".to_vec();
    for k in 1..sections {
        let section = format!("S{k} 9#");
        text.extend(section.as_bytes());
        text.extend(b"c".repeat(each - section.len() - 1));
        text.push(b'\n');
    }
    text.push(b'}');
    assert!(text.len() <= len);
    text.resize(len, b' ');
    text.leak()
}

fn read(text: &[u8]) -> u64 {
    let (mut name, mut size, mut address, mut count) = ([0; 32], 0, 0, 0);
    let refusal = raw::fmd_read(text, &mut name, &mut size, &mut address, &mut count);
    assert_eq!(refusal, 0);
    count
}
