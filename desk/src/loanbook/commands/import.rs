//! `import`: many loans at once, all or none.

use crate::arguments::{Asked, Form};
use crate::csv::{Record, Records};
use crate::desk::{self, Loans, Unfit};
use crate::failure::{Ending, Failure};
use crate::json::Object;
use crate::progress::Progress;
use crate::text::{self, counted};
use std::collections::HashMap;
use std::ffi::OsStr;
use std::fs::File;
use std::io::{self, Read, Write};
use tallybramble::Inserted;

pub const FORM: Form = Form {
    name: "import",
    words: &["BOOK", "FILE.csv"],
    switches: &["--hex", "--header", "--repeats", "--json"],
    numbers: &[],
    help: "\
loanbook import BOOK FILE.csv [--hex] [--header] [--repeats] [--json]

Takes a loan from each line KEY,VALUE of the file; - is standard input. All
lines are taken or none: the first one that is wrong is told with its number,
and then the book stays as it was.

Keys are taken byte for byte and must have exactly the book's length: a barcode
that lost its zeros is refused, never padded. Values may be shorter. A field may
stand in double quotes, and must if it has a comma, a line end or a quote in it;
a quote in it is written twice. Lines end with LF or CRLF. Empty lines are
skipped, and so is a byte order mark. A damaged book is refused.

  --hex       keys and values are hex digits; values then have exactly the
              book's length
  --header    the first line is a heading, and skipped
  --repeats   a key may come in several lines, and the last of them counts;
              without this the second is refused
  --json      the answer as JSON
",
    run,
};

/// The most bytes of a file that is read; the fullest book in hex has about 67 million.
const MOST: u64 = 256 << 20;

/// How many loans an import brought.
#[derive(Debug, Default)]
struct Tally {
    new: usize,
    replaced: usize,
}

fn run(asked: &Asked, out: &mut dyn Write) -> Result<Ending, Failure> {
    let text = contents(asked.word(1))?;
    let (writer, mut book) = desk::change(asked.book())?;
    let tally = take(asked, &text, &mut book)?;
    let lines = tally.new + tally.replaced;
    if lines > 0 {
        desk::keep(asked.book(), writer, &book)?;
    }

    if asked.has("--json") {
        let mut object = Object::new();
        object.text("outcome", "done").number("lines", lines as u64).number("new", tally.new as u64);
        writeln!(out, "{}", object.number("replaced", tally.replaced as u64).finish())?;
    } else {
        let name = text::path(asked.book());
        let (new, replaced) = (text::thousands(tally.new), text::thousands(tally.replaced));
        writeln!(out, "{name}: {} taken, {new} new and {replaced} replaced", counted(lines, "line"))?;
    }
    Ok(Ending::Done)
}

/// Takes every line into the book in memory, up to the first that is refused.
fn take(asked: &Asked, text: &[u8], book: &mut Loans) -> Result<Tally, Failure> {
    let name = name(asked.word(1));
    let mut tally = Tally::default();
    let mut lines = HashMap::new();
    let mut progress = Progress::new();
    let mut records = Records::new(text);
    if asked.has("--header") {
        records.skip_line();
    }
    while let Some(record) = records.next() {
        let record = record.map_err(|fault| Failure::line(&name, fault.line, None, fault.words.to_string()))?;
        let (key, inserted) = take_record(asked, &name, &record, book)?;
        match inserted {
            Inserted::New { .. } => tally.new += 1,
            Inserted::Replaced { .. } => tally.replaced += 1,
        }
        if let (Some(before), false) = (lines.insert(key, record.line), asked.has("--repeats")) {
            let words = format!("the key {} came in line {before} already", text::brief(&record.key));
            return Err(Failure::line(&name, record.line, None, format!("{words}; --repeats takes the last of them")));
        }
        let percent = 100 - records.left() * 100 / text.len().max(1);
        progress.tell(|| format!("{percent} % of {name}, {}", counted(record.line, "line")));
    }
    Ok(tally)
}

/// Takes one line.
fn take_record(asked: &Asked, name: &str, record: &Record, book: &mut Loans) -> Result<(Vec<u8>, Inserted), Failure> {
    let hex = asked.has("--hex");
    let unfit = |unfit| match unfit {
        Unfit::NotHex(words) => Failure::line(name, record.line, None, words),
        Unfit::Length(refusal, words) => {
            Failure::line(name, record.line, Some(refusal), words + heading(asked, record))
        }
    };
    let key = desk::key(book, &record.key, hex).map_err(unfit)?;
    let value = desk::value(book, &record.value, hex).map_err(unfit)?;
    match book.insert(&key, &value) {
        Ok(inserted) => Ok((key, inserted)),
        Err(refusal) => Err(Failure::line(name, record.line, Some(refusal), refusal.to_string())),
    }
}

/// What to say of a first line that has the wrong lengths.
fn heading(asked: &Asked, record: &Record) -> &'static str {
    if record.line == 1 && !asked.has("--header") {
        "; if the first line is a heading, --header skips it"
    } else {
        ""
    }
}

/// The whole file, or standard input.
fn contents(path: &OsStr) -> Result<Vec<u8>, Failure> {
    let mut text = Vec::new();
    let read = if path == "-" {
        io::stdin().lock().take(MOST + 1).read_to_end(&mut text)
    } else {
        File::open(path).and_then(|file| file.take(MOST + 1).read_to_end(&mut text))
    };
    match read {
        Err(error) => Err(Failure::Misuse(format!("{}: it can't be read: {error}", name(path)))),
        Ok(length) if length as u64 > MOST => {
            Err(Failure::refused(&name(path), format!("it is longer than an import's {} MiB; cut it", MOST >> 20)))
        }
        Ok(_) => Ok(text),
    }
}

fn name(path: &OsStr) -> String {
    if path == "-" {
        "standard input".to_string()
    } else {
        text::path(path.as_ref())
    }
}
