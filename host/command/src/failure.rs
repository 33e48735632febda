//! Why a call did not do what it was asked to.

use crate::json::Json;
use crate::paths::shown;
use std::io;
use std::path::{Path, PathBuf};
use usigrambal::{Refusal, Refused};

/// What kind of failure it is; the number is the exit status.
#[derive(Clone, Copy, Debug, PartialEq, Eq)]
pub enum Kind {
    /// By the library.
    Refused(Refusal),
    Usage,
    InputOutput,
    /// In use, or something is there that is kept unless a word says otherwise.
    Needed,
}

impl Kind {
    pub fn status(self) -> u8 {
        match self {
            Kind::Refused(_) => 1,
            Kind::Usage => 2,
            Kind::InputOutput => 3,
            Kind::Needed => 4,
        }
    }
}

#[derive(Debug)]
pub struct Failure {
    pub kind: Kind,
    /// What the refusal says, or a whole sentence.
    words: String,
    /// What would help.
    hint: Option<String>,
    /// What the file is to the call (`disk`, `image`, `layout`), and its path.
    file: Option<(&'static str, PathBuf)>,
    warnings: Vec<String>,
    /// Of the JSON document alone.
    fields: Vec<(&'static str, Json)>,
}

impl Failure {
    fn new(kind: Kind, words: impl Into<String>) -> Failure {
        let words = words.into();
        Failure { kind, words, hint: None, file: None, warnings: Vec::new(), fields: Vec::new() }
    }

    pub fn refused(refusal: Refusal, words: impl Into<String>) -> Failure {
        Failure::new(Kind::Refused(refusal), words)
    }

    pub fn usage(sentence: impl Into<String>) -> Failure {
        Failure::new(Kind::Usage, sentence)
    }

    pub fn input_output(sentence: impl Into<String>) -> Failure {
        Failure::new(Kind::InputOutput, sentence)
    }

    pub fn needed(sentence: impl Into<String>) -> Failure {
        Failure::new(Kind::Needed, sentence)
    }

    /// The failure with what would help.
    pub fn hint(mut self, hint: impl Into<String>) -> Failure {
        self.hint = Some(hint.into());
        self
    }

    /// The same where anything would.
    pub fn hint_if(self, hint: Option<String>) -> Failure {
        match hint {
            Some(hint) => self.hint(hint),
            None => self,
        }
    }

    /// The failure with the file that it is about, unless it has one.
    pub fn on(mut self, what: &'static str, path: &Path) -> Failure {
        self.file.get_or_insert_with(|| (what, path.to_path_buf()));
        self
    }

    pub fn warn(mut self, warnings: impl IntoIterator<Item = String>) -> Failure {
        self.warnings.extend(warnings);
        self
    }

    /// The failure with fields of its verb's answer, those that it has not.
    pub fn with(mut self, fields: &[(&'static str, Json)]) -> Failure {
        for field in fields {
            if self.fields.iter().all(|(name, _)| *name != field.0) {
                self.fields.push(field.clone());
            }
        }
        self
    }

    /// What the refusal says, or the whole sentence.
    pub fn sentence(&self) -> &str {
        &self.words
    }

    pub fn status(&self) -> u8 {
        self.kind.status()
    }

    pub fn refusal(&self) -> Option<Refusal> {
        match self.kind {
            Kind::Refused(refusal) => Some(refusal),
            _ => None,
        }
    }

    /// For standard error: `refused NUMBER: FILE: words` or `usigrambal: sentence`, then the warnings and the hint.
    pub fn lines(&self) -> Vec<String> {
        let first = match (self.refusal(), &self.file) {
            (Some(refusal), Some((_, path))) => {
                format!("refused {}: {}: {}", refusal.number(), shown(path), self.words)
            }
            (Some(refusal), None) => format!("refused {}: {}", refusal.number(), self.words),
            (None, _) => format!("usigrambal: {}", self.words),
        };
        let warnings = self.warnings.iter().map(|warning| warning_line(warning));
        let hint = self.hint.iter().map(|hint| format!("hint: {hint}"));
        std::iter::once(first).chain(warnings).chain(hint).collect()
    }

    /// One shape: the file, `refused` and `words` or else `error`, `hint`, what the verb always has, `warnings`.
    pub fn json(&self) -> Json {
        let mut fields = Vec::new();
        if let Some((what, path)) = &self.file {
            fields.push((*what, path.as_path().into()));
        }
        match self.refusal() {
            Some(refusal) => {
                fields.push(("refused", u64::from(refusal.number()).into()));
                fields.push(("words", self.words.as_str().into()));
            }
            None => fields.push(("error", self.words.as_str().into())),
        }
        fields.push(("hint", self.hint.clone().into()));
        fields.extend(self.fields.iter().cloned());
        fields.push(("warnings", self.warnings.iter().cloned().collect()));
        Json::Object(fields)
    }
}

pub fn warning_line(warning: &str) -> String {
    format!("usigrambal: warning: {warning}")
}

impl From<Refused> for Failure {
    fn from(refused: Refused) -> Failure {
        Failure::refused(refused.refusal, refused.sentence())
    }
}

/// What can't be read as it was typed.
impl From<String> for Failure {
    fn from(sentence: String) -> Failure {
        Failure::usage(sentence)
    }
}

/// A result with the file that its failure is about.
pub trait On<T> {
    fn on(self, what: &'static str, path: &Path) -> Result<T, Failure>;
}

impl<T, E: Into<Failure>> On<T> for Result<T, E> {
    fn on(self, what: &'static str, path: &Path) -> Result<T, Failure> {
        self.map_err(|error| error.into().on(what, path))
    }
}

/// What went wrong, without the number of the operating system.
pub fn words(error: &io::Error) -> String {
    let text = error.to_string();
    text.rsplit_once(" (os error").map_or(text.clone(), |(words, _)| words.to_string())
}

#[cfg(test)]
mod tests {
    use super::*;

    #[test]
    fn a_refusal_names_file_number_words_and_hint() {
        let failure = Failure::refused(Refusal::NoRoom, "no room")
            .hint("the longest run is 7 blocks")
            .on("disk", Path::new("a\nb"));
        assert_eq!(failure.status(), 1);
        assert_eq!(failure.lines(), ["refused 25: a\\nb: no room", "hint: the longest run is 7 blocks"]);
        let json = r#"{"disk": "a\nb", "refused": 25, "words": "no room", "hint": "the longest run is 7 blocks", "warnings": []}"#;
        assert_eq!(failure.json().to_string(), json);
    }

    #[test]
    fn a_sentence_has_its_own_status() {
        let failure = Failure::needed("x is in use").warn(["late".to_string()]);
        assert_eq!(failure.status(), 4);
        assert_eq!(failure.lines(), ["usigrambal: x is in use", "usigrambal: warning: late"]);
        let always = [("verified", Json::Bool(false)), ("state", Json::Null)];
        let failure = failure.with(&[("state", Json::Number(4))]).with(&always);
        let json =
            r#"{"error": "x is in use", "hint": null, "state": 4, "verified": false, "warnings": ["late"]}"#;
        assert_eq!(failure.json().to_string(), json);
        assert_eq!((Failure::usage("").status(), Failure::input_output("").status()), (2, 3));
    }
}
