//! Runs every command of README.md as it stands there: the lines behind `$ `, all in one shell that begins at the
//! repository's root, and holds what they print to the lines that follow. A program that names its file in its first line,
//! `/* NAME: ...`, is put into that file where the shell is. A command that the gate itself runs, or that takes minutes,
//! stands without `$ `.
//!
//! usage, from the repository's root: readme FOLDER    (HOME is the folder, and TMPDIR)

use std::io::{self, Write};
use std::process::{self, Command, Stdio};
use std::{env, fs};

/// A command, and what it prints.
#[derive(Debug, PartialEq)]
struct Step {
    command: String,
    prints: String,
}

/// A line that no command prints, with the number of the command in front of it.
const END: &str = "--- end of command";

/// Whose lines stand next in the text.
enum Open {
    Nothing,
    Output,
    File,
}

/// The commands in order; a program's is the one that writes its file.
fn steps(text: &str) -> Vec<Step> {
    let mut steps: Vec<Step> = Vec::new();
    let mut open = Open::Nothing;
    for line in text.lines() {
        let indented = line.strip_prefix("    ");
        if let Some(command) = indented.and_then(|line| line.strip_prefix("$ ")) {
            steps.push(Step { command: command.to_string(), prints: String::new() });
            open = Open::Output;
            continue;
        }
        match (&open, indented, steps.last_mut()) {
            (Open::Output, Some(line), Some(step)) => step.prints += &format!("{line}\n"),
            (Open::File, Some(line), Some(step)) => put(step, line),
            (Open::File, None, Some(step)) if line.is_empty() => put(step, ""),
            (_, None, _) if line.is_empty() => {}
            (_, Some(line), _) => {
                if let Some(name) = file(line) {
                    let command = format!("cat >{name} <<'{END}'\n{line}\n{END}");
                    steps.push(Step { command, prints: String::new() });
                    open = Open::File;
                }
            }
            _ => open = Open::Nothing,
        }
    }
    steps
}

/// The file that a program's first line names.
fn file(line: &str) -> Option<&str> {
    let (name, _) = line.strip_prefix("/* ")?.split_once(": ")?;
    let plain = |byte: u8| byte.is_ascii_alphanumeric() || b"._-".contains(&byte);
    name.bytes().all(plain).then_some(name)
}

/// Adds a line to the file that the step writes.
fn put(step: &mut Step, line: &str) {
    step.command.truncate(step.command.len() - END.len());
    step.command += &format!("{line}\n{END}");
}

/// What each command prints, standard error with the rest.
fn run(steps: &[Step], home: &str) -> io::Result<Vec<String>> {
    let mut shell = Command::new("bash");
    shell.env("HOME", home).env("TMPDIR", home).stdin(Stdio::piped()).stdout(Stdio::piped());
    let mut shell = shell.spawn()?;
    let mut script = String::from("exec 2>&1\n");
    for (place, step) in steps.iter().enumerate() {
        script += &format!("{{ {}\n}} </dev/null\necho '{END} {place}'\n", step.command);
    }
    shell.stdin.take().expect("a pipe").write_all(script.as_bytes())?;
    let text = String::from_utf8_lossy(&shell.wait_with_output()?.stdout).into_owned();
    let mut rest = text.as_str();
    let mut printed = Vec::new();
    for place in 0..steps.len() {
        let (own, after) = rest.split_once(&format!("{END} {place}\n")).unwrap_or((rest, ""));
        printed.push(own.to_string());
        rest = after;
    }
    Ok(printed)
}

/// What a command printed is what README.md shows; a shown line that begins with ".." stands for any lines.
fn agrees(shown: &str, printed: &str) -> bool {
    let mut rest = printed;
    let parts: Vec<&str> = shown.split_inclusive('\n').collect();
    let mut any = false;
    for part in parts {
        if part.starts_with("..") {
            any = true;
            continue;
        }
        let at = if any { rest.find(part) } else { rest.starts_with(part).then_some(0) };
        let Some(at) = at else { return false };
        rest = &rest[at + part.len()..];
        any = false;
    }
    any || rest.is_empty()
}

fn main() -> io::Result<()> {
    let Some(home) = env::args().nth(1) else {
        eprintln!("usage: readme FOLDER");
        process::exit(2)
    };
    let (mut commands, mut wrong) = (0, 0);
    let steps = steps(&fs::read_to_string("README.md")?);
    for (step, printed) in steps.iter().zip(run(&steps, &home)?) {
        commands += 1;
        if !agrees(&step.prints, &printed) {
            wrong += 1;
            println!("$ {}\nREADME.md shows:\n{}it prints:\n{printed}", step.command, step.prints);
        }
    }
    println!("README.md: {commands} commands run, {wrong} print something else");
    process::exit(if wrong == 0 && commands > 0 { 0 } else { 1 })
}

#[cfg(test)]
mod tests {
    use super::*;

    fn step(command: &str, prints: &str) -> Step {
        Step { command: command.into(), prints: prints.into() }
    }

    #[test]
    fn finds_the_commands() {
        let found = steps("## A\n\n    $ x\n    1\n    2\n    $ y\n\ntext\n    no output\n## B\n    $ z\n");
        assert_eq!(found, [step("x", "1\n2\n"), step("y", ""), step("z", "")]);
    }

    #[test]
    fn a_program_is_put_into_its_file() {
        let found = steps("text\n\n    /* a.c: b */\n    c\n\n      d\n\n    $ x\n    1\n");
        let written = format!("cat >a.c <<'{END}'\n/* a.c: b */\nc\n\n  d\n\n{END}");
        assert_eq!(found, [step(&written, ""), step("x", "1\n")]);
        assert_eq!(steps("    /* a b: c */\n    int x;\n"), []);
    }

    #[test]
    fn runs_them_in_one_shell() {
        let text = "    $ cd $HOME; a=7; false\n    $ echo $a; echo b >&2\nA file:\n    /* f: g */\n    h\n    $ cat f; rm f\n";
        let home = env::temp_dir().join(format!("readme-{}", process::id()));
        fs::create_dir_all(&home).expect("a folder");
        let printed = run(&steps(text), home.to_str().expect("a name")).expect("a shell");
        fs::remove_dir(&home).expect("an empty folder");
        assert_eq!(printed, ["", "7\nb\n", "", "/* f: g */\nh\n"]);
    }

    #[test]
    fn holds_what_is_printed_to_what_is_shown() {
        assert!(agrees("a\nb\n", "a\nb\n"));
        assert!(agrees("a\n..\nc\n", "a\nb\nc\n"));
        assert!(agrees("a\n..\n", "a\nb\nc\n"));
        assert!(!agrees("a\n", "a\nb\n"));
        assert!(!agrees("a\n..\nd\n", "a\nb\nc\n"));
        assert!(!agrees("", "a\n"));
    }
}
