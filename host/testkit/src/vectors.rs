//! Disk calls and layout strings with their outcomes, made by another implementation of the rules. A line is a case's
//! beginning, a change of the lent buffers, or a call; of layout strings each line is a case. The first lines of each file
//! say so.

use crate::disk::{ENTRIES_LEN, SHAPES};
use std::path::PathBuf;
use std::{env, fs};

/// The newest file that is valid for the calls as they are now.
const FILE: &str = "disk-5-k.txt";

/// The file of layout strings.
const STRINGS: &str = "b-strings.txt";

/// What head and tail hold before a layout string.
const BEFORE: u8 = 0xA5;

/// Names the folder of these files; else it is `../shared/vectors`, seen from the repository's root.
const FOLDER: &str = "USIGRAMBAL_VECTORS";

/// A call by its name, with its arguments.
pub struct Call<'a> {
    pub name: &'a str,
    arguments: Vec<(&'a str, &'a str)>,
}

impl<'a> Call<'a> {
    fn new(text: &'a str) -> Call<'a> {
        let (name, rest) = text.split_once(' ').expect("a call and its arguments");
        let arguments = rest.split(' ').map(|word| word.split_once('=').expect("KEY=VALUE")).collect();
        Call { name, arguments }
    }

    fn argument(&self, key: &str) -> &'a str {
        let found = self.arguments.iter().find(|(of, _)| *of == key);
        found.unwrap_or_else(|| panic!("{} has no {key}", self.name)).1
    }

    pub fn number(&self, key: &str) -> u64 {
        self.argument(key).parse().unwrap_or_else(|_| panic!("{key} of {} is no number", self.name))
    }

    pub fn bytes(&self, key: &str) -> Vec<u8> {
        hex(self.argument(key))
    }

    /// The number of the rule that attributes are judged by.
    pub fn rule(&self) -> u64 {
        match self.argument("attribute_rule") {
            "present" => 0,
            "earlier" => 1,
            other => panic!("no rule {other}"),
        }
    }

    /// Units of 16 bits.
    pub fn units(&self, key: &str) -> Vec<u16> {
        self.bytes(key).chunks(2).map(|unit| u16::from_le_bytes([unit[0], unit[1]])).collect()
    }
}

fn hex(digits: &str) -> Vec<u8> {
    let pairs = digits.as_bytes().chunks(2).map(|pair| std::str::from_utf8(pair).expect("digits"));
    pairs.map(|pair| u8::from_str_radix(pair, 16).expect("two hex digits")).collect()
}

/// An implementation of the disk calls.
pub struct Calls {
    pub crc32: fn(&[u8]) -> u32,
    /// Answers 0 and the other answers in words, or the refusal's number.
    pub call: fn(&mut Lent, &Call) -> (u32, String),
    /// The number of blocks, their size, the alignment and the layout string.
    pub build: fn(&mut Lent, [u64; 3], &[u8]) -> u32,
}

/// Head and tail of the case that is run.
#[derive(Default)]
pub struct Lent {
    pub head: Vec<u8>,
    pub tail: Vec<u8>,
}

impl Lent {
    /// What the line changes before the next call; `false` if it is a call.
    fn is_changed_by(&mut self, line: &str) -> bool {
        let words: Vec<&str> = line.split(' ').collect();
        match words[..] {
            ["zeros", head, tail] => {
                let zeros = |len: &str| vec![0; len.parse().expect("a length")];
                (self.head, self.tail) = (zeros(head), zeros(tail));
            }
            ["poke", buffer, at, bytes] => {
                let buffer = if buffer == "head" { &mut self.head } else { &mut self.tail };
                let (at, bytes): (usize, _) = (at.parse().expect("a place"), hex(bytes));
                buffer[at..at + bytes.len()].copy_from_slice(&bytes);
            }
            ["wipe"] => {
                let block = self.tail.len() - ENTRIES_LEN;
                self.head[block..2 * block].fill(0);
                self.tail[ENTRIES_LEN..].fill(0);
            }
            _ => return false,
        }
        true
    }

    /// What the call of the line comes to, in the words of the line.
    fn outcome(&mut self, calls: &Calls, call: &str) -> String {
        let (number, answers) = (calls.call)(self, &Call::new(call));
        self.told(calls, number, &answers)
    }

    fn told(&self, calls: &Calls, number: u32, answers: &str) -> String {
        let answer = match number {
            0 => format!("accepted {answers}"),
            number => format!("refused {number}"),
        };
        let [head, tail] = [&self.head, &self.tail].map(|bytes| (calls.crc32)(bytes));
        format!("{} ; {head:08x} {tail:08x}", answer.trim_end())
    }

    /// Head and tail before a layout string; those for blocks of 512 bytes where the size is neither of the two.
    fn before(block: u64) -> Lent {
        let shape = SHAPES.into_iter().find(|shape| shape.block == block).unwrap_or(SHAPES[0]);
        Lent { head: vec![BEFORE; shape.head_len], tail: vec![BEFORE; shape.tail_len] }
    }
}

/// What the layout string of the line comes to, in the words of the line.
fn string_outcome(calls: &Calls, line: &str) -> String {
    let words: Vec<&str> = line.split(' ').collect();
    let [n, block, alignment, text] = words[..] else { panic!("no layout string: {line}") };
    let numbers = [n, block, alignment].map(|word| word.parse().expect("a number"));
    let text = if text == "-" { Vec::new() } else { hex(text) };
    let mut lent = Lent::before(numbers[1]);
    let number = (calls.build)(&mut lent, numbers, &text);
    lent.told(calls, number, "")
}

/// The lines of a file; `None` where there is none, which is said.
fn lines(file: &str) -> Option<String> {
    let named = env::var_os(FOLDER).map(PathBuf::from);
    let folder = named.clone().unwrap_or_else(|| crate::host().join("../../shared/vectors"));
    if named.is_none() && !folder.exists() {
        crate::skipped(&format!("{file}: no folder {}", folder.display()));
        return None;
    }
    let path = folder.join(file);
    Some(fs::read_to_string(&path).unwrap_or_else(|error| panic!("{}: {error}", path.display())))
}

/// Every call of every case comes to what its line says; of a case that differs, the first such line is told.
pub fn disk_calls_come_to_the_same(calls: &Calls) {
    let Some(lines) = lines(FILE) else { return };
    let (mut lent, mut compared, mut different) = (Lent::default(), 0, Vec::new());
    let (mut case, mut differs) = ("", false);
    for (line, number) in lines.lines().zip(1..) {
        if line.starts_with("case ") {
            (case, differs) = (line, false);
        } else if !differs && !line.starts_with('#') && !lent.is_changed_by(line) {
            let (call, expected) = line.split_once(" => ").expect("a call and its outcome");
            let outcome = lent.outcome(calls, call);
            compared += 1;
            differs = outcome != expected;
            if differs {
                different.push(format!("{case}, line {number}: {outcome}, not {expected}\n{call}"));
            }
        }
    }
    assert!(different.is_empty(), "{FILE}: {}", different.join("\n"));
    assert!(compared > 800, "{compared} calls");
}

/// Every layout string comes to what its line says.
pub fn layout_strings_come_to_the_same(calls: &Calls) {
    let Some(lines) = lines(STRINGS) else { return };
    let (mut compared, mut different) = (0, Vec::new());
    for (line, number) in lines.lines().zip(1..).filter(|(line, _)| !line.starts_with('#')) {
        let (string, expected) = line.split_once(" => ").expect("a layout string and its outcome");
        let outcome = string_outcome(calls, string);
        compared += 1;
        if outcome != expected {
            different.push(format!("line {number}: {outcome}, not {expected}\n{string}"));
        }
    }
    assert!(different.is_empty(), "{STRINGS}: {}", different.join("\n"));
    assert!(compared >= 600, "{compared} layout strings");
}

/// Tests that hold an implementation to the calls and outcomes.
#[macro_export]
macro_rules! vector_tests {
    ($calls:expr) => {
        $crate::tests!(vectors, $calls, [disk_calls_come_to_the_same, layout_strings_come_to_the_same]);
    };
}
