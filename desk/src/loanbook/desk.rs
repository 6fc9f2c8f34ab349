//! What the commands share: opening a book's file, and keys and values as they are given at the desk.

use crate::failure::Failure;
use crate::progress::Progress;
use crate::text;
use std::path::Path;
use tallybramble::file::{self, Writer};
use tallybramble::{Book, Lent, Refusal};

/// A book that was read from its file.
pub type Loans = Book<Vec<u8>>;

/// A key or value that the book can't have.
#[derive(Debug)]
pub enum Unfit {
    NotHex(String),
    Length(Refusal, String),
}

impl Unfit {
    /// As a failure of a command that was given it.
    pub fn given(self, book: &Path) -> Failure {
        match self {
            Unfit::NotHex(words) => Failure::Misuse(words),
            Unfit::Length(refusal, words) => Failure::row(&text::path(book), refusal).with_words(words),
        }
    }
}

/// Reads and opens a book.
pub fn open(path: &Path) -> Result<Loans, Failure> {
    let name = text::path(path);
    let bytes = file::read(path).map_err(|error| Failure::file(&name, error))?;
    Book::open_as_stated(bytes).map_err(|refusal| Failure::row(&name, refusal))
}

/// Takes a book for a change. A damaged one is refused: what a change does to it, nobody promises.
pub fn change(path: &Path) -> Result<(Writer, Loans), Failure> {
    let name = text::path(path);
    let (writer, bytes) = Writer::change(path).map_err(|error| Failure::file(&name, error))?;
    let mut progress = Progress::new();
    progress.say("checking the book ..");
    let book = Book::open_as_stated(bytes).map_err(|refusal| Failure::row(&name, refusal))?;
    book.check().map_err(|refusal| Failure::row(&name, refusal))?;
    Ok((writer, book))
}

/// Writes a changed or new book.
pub fn keep(path: &Path, writer: Writer, book: &Loans) -> Result<(), Failure> {
    writer.replace(book.bytes()).map_err(|error| Failure::file(&text::path(path), error))
}

/// A key as given: byte for byte, of exactly the book's length.
pub fn key(book: &Loans, given: &[u8], hex: bool) -> Result<Vec<u8>, Unfit> {
    let key = bytes(given, hex)?;
    if key.len() != book.key_size() {
        return Err(unfit(given, Lent::Key, book.key_size(), key.len()));
    }
    Ok(key)
}

/// A value as given: text is filled with spaces to the book's length, hex must have it.
pub fn value(book: &Loans, given: &[u8], hex: bool) -> Result<Vec<u8>, Unfit> {
    let mut value = bytes(given, hex)?;
    let (expected, found) = (book.value_size(), value.len());
    if found > expected || (hex && found < expected) {
        return Err(unfit(given, Lent::Value, expected, found));
    }
    value.resize(expected, b' ');
    Ok(value)
}

/// A key as it is shown.
pub fn show_key(key: &[u8], hex: bool) -> String {
    if hex {
        text::hex(key)
    } else {
        text::shown(key)
    }
}

/// A value as it is shown: text without the spaces with which it was filled.
pub fn show_value(value: &[u8], hex: bool) -> String {
    if hex {
        text::hex(value)
    } else {
        text::shown(text::unfilled(value))
    }
}

fn bytes(given: &[u8], hex: bool) -> Result<Vec<u8>, Unfit> {
    if hex {
        text::unhex(given).map_err(Unfit::NotHex)
    } else {
        Ok(given.to_vec())
    }
}

fn unfit(given: &[u8], lent: Lent, expected: usize, found: usize) -> Unfit {
    let refusal = Refusal::Lengths { lent, expected, found };
    Unfit::Length(refusal, format!("{}: {refusal}", text::brief(given)))
}
