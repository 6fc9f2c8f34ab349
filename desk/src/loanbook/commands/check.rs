//! `check`: whether a book is sound.

use crate::arguments::{Asked, Form};
use crate::failure::{Ending, Failure};
use crate::json::Object;
use crate::progress::Progress;
use crate::text::{self, counted, thousands};
use std::io::Write;
use tallybramble::{file, stated_sizes, Book};

pub const FORM: Form = Form {
    name: "check",
    words: &["BOOK"],
    switches: &["--json"],
    numbers: &[],
    help: "\
loanbook check BOOK [--json]

Tests the whole book: its header and length, that empty slots are empty, that
each key has its control byte, that the mirrors agree, that no key stands twice
and that a search comes to each. The first fault is told in words, with its slot
and the number of its row in the rules, and the status is then 1.

  --json   the answer as JSON, with the fault's numbers
",
    run,
};

fn run(asked: &Asked, out: &mut dyn Write) -> Result<Ending, Failure> {
    let name = text::path(asked.book());
    let mut progress = Progress::new();
    progress.say("reading ..");
    let bytes = file::read(asked.book()).map_err(|error| Failure::file(&name, error))?;
    progress.say(&format!("checking {} ..", counted(bytes.len(), "byte")));
    let refused = |refusal| Failure::row(&name, refusal);
    let (key, value) = stated_sizes(&bytes);
    tallybramble::check(&bytes, key, value).map_err(refused)?;
    let book = Book::open(bytes, key, value).map_err(refused)?;
    let loans = book.entries().count();
    drop(progress);

    if asked.has("--json") {
        let mut object = Object::new();
        object.text("outcome", "sound").text("file", &name).number("loans", loans as u64);
        writeln!(out, "{}", object.number("slots", book.slots() as u64).finish())?;
    } else {
        writeln!(out, "{name}: the book is sound; {} in {} slots", counted(loans, "loan"), thousands(book.slots()))?;
    }
    Ok(Ending::Done)
}
