//! What a call that was done tells.

use crate::failure::{words, Failure};
use crate::json::Json;
use std::io::{self, Write};

#[derive(Debug)]
pub struct Report {
    pub text: String,
    /// The fields of the one JSON object; `warnings` comes behind them.
    pub json: Vec<(&'static str, Json)>,
    /// For standard error, and for the JSON document.
    pub warnings: Vec<String>,
    /// 0, or 1 where a check found something.
    pub status: u8,
    /// What was written, and how to look at it: told where the report can't be printed.
    pub written: Option<String>,
}

impl Report {
    pub fn new(text: impl Into<String>, json: Vec<(&'static str, Json)>) -> Report {
        Report { text: text.into(), json, warnings: Vec::new(), status: 0, written: None }
    }

    pub fn warn(mut self, warnings: impl IntoIterator<Item = String>) -> Report {
        self.warnings.extend(warnings);
        self
    }

    /// The report of a check that found something.
    pub fn found(mut self) -> Report {
        self.status = 1;
        self
    }

    /// The report of a write: a sentence on what was written, and how to look at it.
    pub fn written(mut self, sentence: Option<String>) -> Report {
        self.written = sentence;
        self
    }

    pub fn json(&self) -> Json {
        let warnings = ("warnings", self.warnings.iter().cloned().collect());
        Json::Object(self.json.iter().cloned().chain([warnings]).collect())
    }
}

/// Writes to standard output. A reader that has gone away has read enough.
pub fn print(bytes: &[u8]) -> Result<(), Failure> {
    let mut out = io::stdout().lock();
    match out.write_all(bytes).and_then(|()| out.flush()) {
        Err(error) if error.kind() != io::ErrorKind::BrokenPipe => {
            Err(Failure::input_output(format!("standard output cannot be written: {}", words(&error))))
        }
        _ => Ok(()),
    }
}

/// Writes a line to standard error, if that can be written.
pub fn say(line: &str) {
    let _ = writeln!(io::stderr(), "{line}");
}
