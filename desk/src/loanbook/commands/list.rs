//! `list`: every loan.

use crate::arguments::{Asked, Form};
use crate::desk::{self, show_key, show_value};
use crate::failure::{Ending, Failure};
use crate::json::Object;
use crate::text;
use std::io::Write;
use tallybramble::Entry;

pub const FORM: Form = Form {
    name: "list",
    words: &["BOOK"],
    switches: &["--hex", "--json"],
    numbers: &[],
    help: "\
loanbook list BOOK [--hex] [--json]

Prints every key, a tab and its value, a line each, in the order of the slots.
Values come without the spaces at their end. What is not plain text is printed
as hex: and its digits.

  --hex    all keys and values as hex digits, spaces too
  --json   a JSON list, an object a line
",
    run,
};

fn run(asked: &Asked, out: &mut dyn Write) -> Result<Ending, Failure> {
    let hex = asked.has("--hex");
    let book = desk::open(asked.book())?;
    if !asked.has("--json") {
        for entry in book.entries() {
            writeln!(out, "{}\t{}", show_key(entry.key, hex), show_value(entry.value, hex))?;
        }
        return Ok(Ending::Done);
    }
    for (number, entry) in book.entries().enumerate() {
        write!(out, "{}{}", if number == 0 { "[\n" } else { ",\n" }, json(&entry))?;
    }
    writeln!(out, "{}", if book.entries().next().is_none() { "[]" } else { "\n]" })?;
    Ok(Ending::Done)
}

fn json(entry: &Entry) -> String {
    let mut object = Object::new();
    object.bytes("key", entry.key, entry.key).bytes("value", text::unfilled(entry.value), entry.value);
    object.number("slot", entry.slot as u64).finish()
}
