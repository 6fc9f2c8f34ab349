//! `find`: the last loan of a key.

use crate::arguments::{Asked, Form};
use crate::desk;
use crate::failure::{Ending, Failure};
use crate::json::Object;
use crate::text;
use std::io::Write;
use std::os::unix::ffi::OsStrExt;
use tallybramble::Found;

pub const FORM: Form = Form {
    name: "find",
    words: &["BOOK", "KEY"],
    switches: &["--hex", "--json"],
    numbers: &[],
    help: "\
loanbook find BOOK KEY [--hex] [--json]

Prints the value of KEY, without the spaces at its end. If KEY is not in the
book, that is said on standard error, and the status is 1. KEY is taken byte
for byte and must have exactly the book's length.

  --hex    KEY is hex digits, and the value is printed so, all of it
  --json   the answer as JSON, with the slot and the number of groups that the
           search examined
  --       what follows is no option: for a KEY that begins with -
",
    run,
};

fn run(asked: &Asked, out: &mut dyn Write) -> Result<Ending, Failure> {
    let hex = asked.has("--hex");
    let book = desk::open(asked.book())?;
    let key = desk::key(&book, asked.word(1).as_bytes(), hex).map_err(|unfit| unfit.given(asked.book()))?;
    let name = text::path(asked.book());
    let refused = |refusal| Failure::row(&name, refusal);
    let found = book.find(&key).map_err(refused)?;
    let value = book.value(&key).map_err(refused)?;

    if asked.has("--json") {
        writeln!(out, "{}", json(&key, found, value.unwrap_or_default()))?;
    }
    let Some(value) = value else {
        let _ = writeln!(std::io::stderr(), "loanbook: {name}: {} is not in the book", text::brief(&key));
        return Ok(Ending::Absent);
    };
    if !asked.has("--json") {
        writeln!(out, "{}", desk::show_value(value, hex))?;
    }
    Ok(Ending::Done)
}

fn json(key: &[u8], found: Found, value: &[u8]) -> String {
    let mut object = Object::new();
    match found {
        Found::At { slot, groups } => {
            object.text("outcome", "found").bytes("key", key, key).bytes("value", text::unfilled(value), value);
            object.number("slot", slot as u64).number("groups", groups as u64)
        }
        Found::Absent { groups } => {
            object.text("outcome", "absent").bytes("key", key, key).number("groups", groups as u64)
        }
    };
    object.finish()
}
