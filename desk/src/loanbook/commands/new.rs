//! `new`: a book without loans.

use crate::arguments::{Asked, Form};
use crate::desk;
use crate::failure::{Ending, Failure};
use crate::json::Object;
use crate::text::{self, counted, thousands};
use std::io::Write;
use tallybramble::file::Writer;
use tallybramble::{Book, Sizes};

pub const FORM: Form = Form {
    name: "new",
    words: &["BOOK"],
    switches: &["--json"],
    numbers: &["--key", "--value", "--slots"],
    help: "\
loanbook new BOOK --key N --value N --slots N [--json]

Makes the file BOOK, a new book without loans. A file that is there already is
never overwritten.

  --key N     bytes of a key, the barcode: 1 to 255. Every key of the book has
              exactly this length
  --value N   bytes of a value, the last loan: 0 to 255. Shorter values are
              filled with spaces
  --slots N   room for this many keys: a power of two from 16 to 65,536.
              Searches are short while a fifth of the slots is free
  --json      the answer as JSON

A book's sizes stay as they are. To bring all loans into a larger one:
  loanbook list OLD --hex | tr '\\t' , | loanbook import NEW - --hex
",
    run,
};

fn run(asked: &Asked, out: &mut dyn Write) -> Result<Ending, Failure> {
    let number = |option| asked.number(option).unwrap_or(0);
    let sizes = Sizes { key: number("--key"), value: number("--value"), slots: number("--slots") };
    let name = text::path(asked.book());
    let refused = |refusal| Failure::row(&name, refusal);

    let bytes = vec![0; sizes.total().map_err(refused)?];
    let book = Book::create(bytes, sizes).map_err(refused)?;
    let writer = Writer::create(asked.book()).map_err(|error| Failure::file(&name, error))?;
    desk::keep(asked.book(), writer, &book)?;

    let (slots, length) = (thousands(sizes.slots), counted(book.bytes().len(), "byte"));
    if asked.has("--json") {
        let mut object = Object::new();
        object.text("outcome", "new").text("file", &name).number("key_size", sizes.key as u64);
        object.number("value_size", sizes.value as u64).number("slots", sizes.slots as u64);
        writeln!(out, "{}", object.number("bytes", book.bytes().len() as u64).finish())?;
    } else {
        let (key, value) = (counted(sizes.key, "byte"), counted(sizes.value, "byte"));
        writeln!(out, "{name}: a new book with keys of {key}, values of {value} and {slots} slots; {length}")?;
    }
    Ok(Ending::Done)
}
