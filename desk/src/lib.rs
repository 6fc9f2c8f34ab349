//! Loan books: an on-disk hash table whose every call is proved, for Rust.
//!
//! A book is a run of bytes, as it stands on disk: key the barcode, value the last loan. [`Book`] lays the proved calls
//! over any bytes, lent or owned; [`Refusal`] says in words why a call was refused, and then nothing was changed;
//! [`file`](mod@file) keeps books as files that are whole at every moment.
//!
//! ```
//! use tallybramble::{Book, Found, Inserted, Sizes};
//!
//! let sizes = Sizes { key: 4, value: 6, slots: 16 };
//! let mut bytes = vec![0; sizes.total()?];
//! let mut book = Book::create(&mut bytes[..], sizes)?;
//!
//! book.insert(b"0042", b"Luna  ")?;
//! let Inserted::Replaced { old, .. } = book.insert(b"0042", b"home  ")? else { panic!("0042 was there") };
//! assert_eq!(old, b"Luna  ");
//! assert_eq!(book.value(b"0042")?, Some(&b"home  "[..]));
//! assert!(matches!(book.find(b"1042")?, Found::Absent { groups: 1 }));
//!
//! // A barcode that lost its zeros is refused, never taken for another.
//! let refusal = book.find(b"42").unwrap_err();
//! assert_eq!(refusal.row(), 13);
//! assert_eq!(book.entries().count(), 1);
//! book.check()?;
//! # Ok::<(), tallybramble::Refusal>(())
//! ```

#![deny(unsafe_code)]
#![deny(unsafe_op_in_unsafe_fn)]
#![warn(missing_docs)]

#[cfg(not(target_pointer_width = "64"))]
compile_error!("the proved library is for 64-bit platforms");

mod answer;
mod book;
pub mod file;
#[allow(unsafe_code)]
pub mod native;
mod refusal;

pub use book::{check, stated_sizes, Book, Entries, Entry, Found, Inserted, Sizes};
pub use refusal::{Lent, Refusal};
