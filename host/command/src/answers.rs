//! What the calls of one command line answered, told in their order.

use crate::failure::{warning_line, Failure};
use crate::json::Json;
use crate::report::{print, say, Report};

pub struct Answers {
    json: bool,
    /// Several disks: one list of JSON documents.
    several: bool,
    documents: Vec<Json>,
    /// Whether the last text has blank lines; none before the first.
    parted: Option<bool>,
    status: u8,
}

impl Answers {
    pub fn new(json: bool, several: bool) -> Answers {
        Answers { json, several, documents: Vec::new(), parted: None, status: 0 }
    }

    pub fn tell(&mut self, answer: Result<Report, Failure>) {
        match answer {
            Ok(report) => self.done(report),
            Err(failure) => self.failed(&failure),
        }
    }

    fn done(&mut self, report: Report) {
        report.warnings.iter().for_each(|warning| say(&warning_line(warning)));
        self.worsen(report.status);
        let printed = match (self.json, self.several) {
            (true, true) => {
                self.documents.push(report.json());
                Ok(())
            }
            (true, false) => print(format!("{}\n", report.json()).as_bytes()),
            (false, _) => print(format!("{}{}", self.gap(&report.text), report.text).as_bytes()),
        };
        if let Err(failure) = printed {
            self.unprinted(failure, report.written);
        }
    }

    /// A blank line between texts that have blank lines themselves.
    fn gap(&mut self, text: &str) -> &'static str {
        let parted = text.contains("\n\n");
        let gap = self.parted.is_some_and(|before| before || parted);
        self.parted = Some(parted);
        if gap {
            "\n"
        } else {
            ""
        }
    }

    fn failed(&mut self, failure: &Failure) {
        failure.lines().iter().for_each(|line| say(line));
        self.worsen(failure.status());
        if !self.json {
            return;
        }
        if self.several {
            self.documents.push(failure.json());
        } else if let Err(unprinted) = print(format!("{}\n", failure.json()).as_bytes()) {
            self.unprinted(unprinted, None);
        }
    }

    /// What could not be printed is told on standard error.
    fn unprinted(&mut self, failure: Failure, written: Option<String>) {
        let failure = match written {
            Some(written) => failure.hint(written),
            None => failure,
        };
        failure.lines().iter().for_each(|line| say(line));
        self.worsen(failure.status());
    }

    fn worsen(&mut self, status: u8) {
        self.status = self.status.max(status);
    }

    /// The exit status: the worst.
    pub fn end(mut self) -> u8 {
        if self.json && self.several {
            let documents = Json::List(std::mem::take(&mut self.documents));
            if let Err(failure) = print(format!("{documents}\n").as_bytes()) {
                self.unprinted(failure, None);
            }
        }
        self.status
    }
}
