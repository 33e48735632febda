//! The command `usigrambal`: layout texts, flash images and GPT disks, on files and block devices.

mod answers;
mod arguments;
mod block;
mod completion;
mod disk;
mod failure;
mod flash;
mod gpt;
mod help;
mod image;
mod json;
mod layout;
mod pages;
mod paths;
mod report;
mod show;
mod sizes;
mod storage;
mod texts;
mod verbs;

use answers::Answers;
use arguments::{Given, Request};
use failure::{Failure, Kind};
use report::Report;
use std::env;
use std::ffi::OsString;
use std::process::ExitCode;
use verbs::Verb;

fn main() -> ExitCode {
    let words: Vec<OsString> = env::args_os().skip(1).collect();
    let status = match arguments::read(&words) {
        Ok(Request::Say(text)) => {
            report::print(text.as_bytes()).map_or_else(|failure| told(false, failure), |()| 0)
        }
        Ok(Request::Call(verb, given)) => call(verb, &given),
        Err(failure) => told(words.iter().any(|word| word == "--json"), failure),
    };
    ExitCode::from(status)
}

fn told(json: bool, failure: Failure) -> u8 {
    let mut answers = Answers::new(json, false);
    answers.tell(Err(failure));
    answers.end()
}

/// Each of several disks is a call of its own; what was typed wrongly is told once.
fn call(verb: &'static Verb, given: &Given) -> u8 {
    let several = verb.takes_several() && given.operands.len() > 1;
    let mut answers = Answers::new(given.has("--json"), several);
    if !several {
        answers.tell(run(verb, given));
        return answers.end();
    }
    for place in 0..given.operands.len() {
        let answer = run(verb, &given.alone(place));
        let misused = matches!(&answer, Err(failure) if failure.kind == Kind::Usage);
        answers.tell(answer);
        if misused {
            break;
        }
    }
    answers.end()
}

fn run(verb: &'static Verb, given: &Given) -> Result<Report, Failure> {
    (verb.run)(given).map_err(|failure| failure.with(verb.always))
}
