//! What the tests share: a folder of their own, running the program, books byte by byte, and a reader of JSON.

#![allow(dead_code)]

use std::ffi::OsStr;
use std::fs;
use std::path::{Path, PathBuf};
use std::process::{Command, Output, Stdio};
use std::sync::atomic::{AtomicUsize, Ordering};

/// A folder of one test, gone when the test ends.
pub struct Folder(PathBuf);

impl Folder {
    pub fn new() -> Folder {
        static NEXT: AtomicUsize = AtomicUsize::new(0);
        let name = format!("loanbook-test-{}-{}", std::process::id(), NEXT.fetch_add(1, Ordering::Relaxed));
        let path = std::env::temp_dir().join(name);
        fs::create_dir(&path).unwrap();
        Folder(path)
    }

    pub fn path(&self, name: &str) -> PathBuf {
        self.0.join(name)
    }

    pub fn write(&self, name: &str, bytes: impl AsRef<[u8]>) {
        fs::write(self.path(name), bytes).unwrap();
    }

    pub fn read(&self, name: &str) -> Vec<u8> {
        fs::read(self.path(name)).unwrap()
    }

    /// The names of all files, hidden ones too.
    pub fn names(&self) -> Vec<String> {
        let name = |entry: std::io::Result<fs::DirEntry>| entry.unwrap().file_name().into_string().unwrap();
        let mut names: Vec<String> = fs::read_dir(&self.0).unwrap().map(name).collect();
        names.sort();
        names
    }

    /// The program with these arguments, in this folder.
    pub fn command<S: AsRef<OsStr>>(&self, arguments: &[S]) -> Command {
        let mut command = Command::new(env!("CARGO_BIN_EXE_loanbook"));
        command.args(arguments).current_dir(&self.0).stdin(Stdio::null());
        command
    }

    /// Runs the program in this folder.
    pub fn run<S: AsRef<OsStr>>(&self, arguments: &[S]) -> Said {
        Said::of(self.command(arguments).output().unwrap())
    }

    /// Runs a line of words, separated by spaces.
    pub fn say(&self, line: &str) -> Said {
        self.run(&line.split(' ').collect::<Vec<_>>())
    }

    /// Runs a line that must be done, and gives its answer.
    pub fn done(&self, line: &str) -> String {
        let said = self.say(line);
        assert_eq!((said.status, said.err.as_str()), (0, ""), "{line}");
        said.out
    }
}

impl Drop for Folder {
    fn drop(&mut self) {
        let _ = fs::remove_dir_all(&self.0);
    }
}

/// What the program said.
#[derive(Debug)]
pub struct Said {
    pub status: i32,
    pub out: String,
    pub err: String,
}

impl Said {
    pub fn of(output: Output) -> Said {
        let text = |bytes| String::from_utf8(bytes).expect("the program writes UTF-8");
        let said =
            Said { status: output.status.code().unwrap_or(-1), out: text(output.stdout), err: text(output.stderr) };
        assert!(!said.err.contains("panicked"), "{said:?}");
        said
    }

    /// Asserts an exit status with nothing on standard output, and each of these words on standard error.
    #[track_caller]
    pub fn fails(&self, status: i32, words: &[&str]) {
        assert_eq!((self.status, self.out.as_str()), (status, ""), "{self:?}");
        assert!(self.err.starts_with("loanbook: ") && self.err.ends_with('\n'), "{self:?}");
        for word in words {
            assert!(self.err.contains(word), "{word:?} is not in {:?}", self.err);
        }
    }
}

/// Bytes overwritten at an offset.
pub fn poke(book: &mut [u8], offset: usize, bytes: &[u8]) {
    book[offset..offset + bytes.len()].copy_from_slice(bytes);
}

/// Document 01's new book of 16 slots, keys and values of one byte.
pub fn fresh() -> Vec<u8> {
    let mut book = vec![0; 96];
    poke(&mut book, 0, b"ODHT\x01\x01\x01\x20");
    book[16] = 16;
    book[27] = 2;
    book[64..].fill(0xff);
    book
}

/// The same with document 01's four loans.
pub fn four() -> Vec<u8> {
    let mut book = fresh();
    for (slot, pair, tag) in
        [(5, [0x01, 0x0a], 0x13), (6, [0x11, 0x0b], 0x4c), (15, [0x03, 0x0c], 0x3a), (0, [0x13, 0x0d], 0x73)]
    {
        poke(&mut book, 32 + 2 * slot, &pair);
        book[64 + slot] = tag;
        book[80 + slot] = tag;
    }
    book
}

/// A new book of 32 slots, keys and values of one byte.
pub fn fresh_32() -> Vec<u8> {
    let mut book = fresh();
    book[16] = 32;
    book.truncate(32);
    book.extend([0; 64]);
    book.extend([0xff; 48]);
    book
}

/// Damaged books: the row that refuses each, what its words must hold, and its bytes.
pub fn damaged() -> Vec<(u64, &'static str, Vec<u8>)> {
    let with = |mut book: Vec<u8>, pokes: &[(usize, &[u8])]| {
        pokes.iter().for_each(|(offset, bytes)| poke(&mut book, *offset, bytes));
        book
    };
    let twins: &[(usize, &[u8])] =
        &[(36, &[1]), (50, &[1]), (66, &[0x13]), (82, &[0x13]), (73, &[0x13]), (89, &[0x13])];
    vec![
        (2, "32 bytes", four()[..31].to_vec()),
        (3, "ODHT", with(four(), &[(3, b"t")])),
        (3, "ODHT", with(four(), &[(0, b"X"), (27, &[3])])),
        (4, "version", with(four(), &[(27, &[3])])),
        (5, "metadata size", with(four(), &[(4, &[2])])),
        (6, "key size", with(four(), &[(5, &[0])])),
        (8, "header size", with(four(), &[(7, &[31])])),
        (9, "power of two", with(four(), &[(16, &[24])])),
        (9, "power of two", with(four(), &[(23, &[1])])),
        (10, "bytes", four()[..95].to_vec()),
        (10, "bytes", [four(), vec![0]].concat()),
        (10, "bytes", with(four(), &[(6, &[2])])),
        (11, "slot 7 is empty", with(four(), &[(47, &[1])])),
        (12, "slot 5 should be 0x13 by the key that stands there, and is 0x05", with(four(), &[(69, &[5])])),
        (15, "mirror 0", with(fresh(), &[(80, &[0x80])])),
        (16, "slot 9", with(fresh(), twins)),
        (17, "slot 5", with(fresh_32(), &[(42, &[1]), (101, &[0x13]), (133, &[0x13])])),
    ]
}

/// The path of a file in a folder that can be looked at, but not read.
pub fn unreadable() -> &'static Path {
    Path::new("/proc/self/mem")
}

/// Whether a text is one JSON value.
pub fn is_json(text: &str) -> bool {
    value(text.trim_end()).is_some_and(|rest| rest.is_empty())
}

/// What is behind the JSON value with which a text begins.
fn value(text: &str) -> Option<&str> {
    let text = text.trim_start();
    match text.chars().next()? {
        '{' => members(&text[1..], '}', |item| value(string(item.trim_start())?.trim_start().strip_prefix(':')?)),
        '[' => members(&text[1..], ']', value),
        '"' => string(text),
        _ => {
            let end = text.find(|c: char| !c.is_ascii_alphanumeric()).unwrap_or(text.len());
            let word = &text[..end];
            (word == "null" || word.parse::<u64>().is_ok()).then_some(&text[end..])
        }
    }
}

fn members(text: &str, close: char, item: impl Fn(&str) -> Option<&str>) -> Option<&str> {
    let mut rest = text.trim_start();
    if let Some(behind) = rest.strip_prefix(close) {
        return Some(behind);
    }
    loop {
        rest = item(rest)?.trim_start();
        match rest.strip_prefix(close) {
            Some(behind) => return Some(behind),
            None => rest = rest.strip_prefix(',')?,
        }
    }
}

fn string(text: &str) -> Option<&str> {
    let mut characters = text.strip_prefix('"')?.char_indices();
    while let Some((at, c)) = characters.next() {
        match c {
            '"' => return Some(&text[at + 2..]),
            '\\' => match characters.next()?.1 {
                'u' => (0..4).try_for_each(|_| characters.next()?.1.is_ascii_hexdigit().then_some(()))?,
                '"' | '\\' => {}
                _ => return None,
            },
            c if c < ' ' => return None,
            _ => {}
        }
    }
    None
}
