//! `lend`: one loan into the book.

use crate::arguments::{Asked, Form};
use crate::desk::{self, show_key, show_value};
use crate::failure::{Ending, Failure};
use crate::json::Object;
use crate::text;
use std::io::Write;
use std::os::unix::ffi::OsStrExt;
use tallybramble::Inserted;

pub const FORM: Form = Form {
    name: "lend",
    words: &["BOOK", "KEY", "VALUE"],
    switches: &["--hex", "--json"],
    numbers: &[],
    help: "\
loanbook lend BOOK KEY VALUE [--hex] [--json]

Writes VALUE as the last loan of KEY, and tells the one before it. For a game
that comes back, VALUE says so: loanbook lend BOOK KEY home.

KEY is taken byte for byte and must have exactly the book's length: one that is
short of its zeros is refused, never padded. VALUE may be shorter than the
book's values. It is filled with spaces, and spaces at the end are not shown.
A damaged book is refused, whichever key is asked for.

  --hex    KEY and VALUE are hex digits; VALUE then has exactly the book's
           length
  --json   the answer as JSON
  --       what follows is no option: for a KEY or VALUE that begins with -
",
    run,
};

fn run(asked: &Asked, out: &mut dyn Write) -> Result<Ending, Failure> {
    let hex = asked.has("--hex");
    let (writer, mut book) = desk::change(asked.book())?;
    let unfit = |unfit: desk::Unfit| unfit.given(asked.book());
    let key = desk::key(&book, asked.word(1).as_bytes(), hex).map_err(unfit)?;
    let value = desk::value(&book, asked.word(2).as_bytes(), hex).map_err(unfit)?;
    let name = text::path(asked.book());
    let inserted = book.insert(&key, &value).map_err(|refusal| Failure::row(&name, refusal))?;
    desk::keep(asked.book(), writer, &book)?;

    if asked.has("--json") {
        writeln!(out, "{}", json(&key, &value, &inserted))?;
        return Ok(Ending::Done);
    }
    write!(out, "{}: {}", show_key(&key, hex), show_value(&value, hex))?;
    match inserted {
        Inserted::New { .. } => writeln!(out, " (new)")?,
        Inserted::Replaced { old, .. } => writeln!(out, " (was: {})", show_value(&old, hex))?,
    }
    Ok(Ending::Done)
}

fn json(key: &[u8], value: &[u8], inserted: &Inserted) -> String {
    let mut object = Object::new();
    let (outcome, slot, groups) = match *inserted {
        Inserted::New { slot, groups } => ("new", slot, groups),
        Inserted::Replaced { slot, groups, .. } => ("replaced", slot, groups),
    };
    object.text("outcome", outcome).bytes("key", key, key).bytes("value", text::unfilled(value), value);
    if let Inserted::Replaced { old, .. } = inserted {
        object.bytes("old", text::unfilled(old), old);
    }
    object.number("slot", slot as u64).number("groups", groups as u64).finish()
}
