//! How a command ends, and how it fails: the exit status and the words.

use crate::json::Object;
use std::io;
use tallybramble::file::FileError;
use tallybramble::Refusal;

/// How a command that was carried out ended.
#[derive(Debug, Clone, Copy, PartialEq, Eq)]
pub enum Ending {
    /// Done: status 0.
    Done,
    /// The key is absent: status 1.
    Absent,
}

/// Why a command was not carried out.
#[derive(Debug)]
pub enum Failure {
    /// It was asked wrongly, or a file is out of reach: status 2.
    Misuse(String),
    /// It was refused: status 1.
    Refused(No),
    /// Its answer could not be written.
    Output(io::Error),
}

/// A refused command.
#[derive(Debug)]
pub struct No {
    /// The file that it is about, in words.
    file: String,
    /// The line of that file.
    line: Option<usize>,
    /// The row of the rules, where one applies.
    row: Option<Refusal>,
    words: String,
}

impl Failure {
    /// A refusal of the book in this file.
    pub fn row(file: &str, refusal: Refusal) -> Failure {
        Failure::Refused(No { file: file.to_string(), line: None, row: Some(refusal), words: refusal.to_string() })
    }

    /// The same refusal in other words.
    pub fn with_words(self, words: String) -> Failure {
        match self {
            Failure::Refused(no) => Failure::Refused(No { words, ..no }),
            other => other,
        }
    }

    /// A refusal of one line of a file.
    pub fn line(file: &str, line: usize, row: Option<Refusal>, words: String) -> Failure {
        Failure::Refused(No { file: file.to_string(), line: Some(line), row, words })
    }

    /// A refusal that no row tells.
    pub fn refused(file: &str, words: String) -> Failure {
        Failure::Refused(No { file: file.to_string(), line: None, row: None, words })
    }

    /// A file that is refused or out of reach.
    pub fn file(file: &str, error: FileError) -> Failure {
        if error.is_refusal() {
            Failure::refused(file, error.to_string())
        } else {
            Failure::Misuse(format!("{file}: {error}"))
        }
    }

    /// The words for standard error.
    pub fn words(&self) -> String {
        match self {
            Failure::Misuse(words) => words.clone(),
            Failure::Refused(no) => no.sentence(),
            Failure::Output(error) => format!("the answer can't be written: {error}"),
        }
    }

    /// The exit status.
    pub fn status(&self) -> u8 {
        match self {
            Failure::Refused(_) => 1,
            Failure::Misuse(_) | Failure::Output(_) => 2,
        }
    }
}

impl From<io::Error> for Failure {
    fn from(error: io::Error) -> Failure {
        Failure::Output(error)
    }
}

impl No {
    fn sentence(&self) -> String {
        let line = self.line.map_or(String::new(), |line| format!("line {line}: "));
        let row = self.row.map_or(String::new(), |refusal| format!(" (row {})", refusal.row()));
        format!("{}: {line}{}{row}", self.file, self.words)
    }

    /// The refusal for a script.
    pub fn json(&self) -> String {
        let mut object = Object::new();
        object.text("outcome", "refused").text("file", &self.file);
        match &self.row {
            Some(refusal) => object.number("row", refusal.row()),
            None => object.null("row"),
        };
        match self.line {
            Some(line) => object.number("line", line as u64),
            None => object.null("line"),
        };
        match self.row {
            Some(Refusal::EmptySlot { slot } | Refusal::Twin { slot } | Refusal::Unreachable { slot }) => {
                object.number("slot", slot as u64);
            }
            Some(Refusal::Mirror { mirror }) => {
                object.number("slot", mirror as u64);
            }
            Some(Refusal::ControlByte { slot, expected, found }) => {
                object.number("slot", slot as u64).number("expected", expected.into()).number("found", found.into());
            }
            Some(Refusal::Lengths { expected, found, .. }) => {
                object.number("expected", expected as u64).number("found", found as u64);
            }
            Some(Refusal::Full { groups }) => {
                object.number("groups", groups as u64);
            }
            _ => {}
        }
        object.text("words", &self.words).finish()
    }
}
