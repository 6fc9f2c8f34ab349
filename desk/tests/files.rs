//! Books as files: out of reach, locked, linked, protected, short of room, and with a writer that is killed.

mod common;

use common::{four, fresh, unreadable, Folder, Said};
use std::fs::{self, File};
use std::os::unix::fs::{symlink, PermissionsExt};
use std::path::Path;
use std::process::{Command, Stdio};
use std::time::{Duration, Instant};
use tallybramble::file::{self, FileError, Writer};
use tallybramble::Book;

/// A folder with document 01's book of four loans.
fn desk() -> Folder {
    let folder = Folder::new();
    folder.write("b", four());
    folder
}

/// The commands that read a book, then those that change one.
const READ: [&str; 4] = ["find B 1", "list B", "check B", "show B"];
const CHANGE: [&str; 2] = ["lend B 1 2", "import B one.csv"];

#[test]
fn a_file_out_of_reach_ends_with_2() {
    let folder = Folder::new();
    folder.write("one.csv", "1,2\n");
    fs::create_dir(folder.path("folder")).unwrap();
    symlink("nowhere", folder.path("dangling")).unwrap();
    let memory = unreadable().to_str().unwrap();
    let below = "one.csv/book";
    for command in READ.into_iter().chain(CHANGE) {
        folder.say(&command.replace('B', "missing")).fails(2, &["missing: there is no such file"]);
        folder.say(&command.replace('B', "dangling")).fails(2, &["no such file"]);
        folder.say(&command.replace('B', "folder")).fails(2, &["folder: it is a folder"]);
        folder.say(&command.replace('B', "/dev/zero")).fails(2, &["device"]);
        folder.say(&command.replace('B', below)).fails(2, &[below]);
        folder.run(&command.replace('B', "").split(' ').collect::<Vec<_>>()).fails(2, &["no such file"]);
    }
    for command in READ {
        folder.say(&command.replace('B', memory)).fails(2, &[memory, "it can't be read"]);
    }
    assert_eq!(folder.names(), ["dangling", "folder", "one.csv"]);
}

#[test]
fn a_pipe_is_no_book_and_nobody_waits_for_it() {
    let folder = desk();
    assert!(Command::new("mkfifo").arg(folder.path("pipe")).status().unwrap().success());
    folder.say("find pipe 1").fails(2, &["no file"]);
    folder.say("lend pipe 1 2").fails(2, &["no file"]);
}

#[test]
fn an_import_file_out_of_reach_changes_nothing() {
    let folder = desk();
    folder.say("import b missing.csv").fails(2, &["missing.csv: it can't be read"]);
    folder.say("import b .").fails(2, &[".: it can't be read"]);
    folder.run(&[Path::new("import"), Path::new("b"), unreadable()]).fails(2, &["it can't be read"]);
    assert_eq!(folder.read("b"), four());
}

#[test]
fn a_file_longer_than_any_book_is_not_read() {
    let folder = Folder::new();
    File::create(folder.path("b")).unwrap().set_len(1 << 40).unwrap();
    folder.write("one.csv", "1,2\n");
    for command in READ.into_iter().chain(CHANGE) {
        folder.say(&command.replace('B', "b")).fails(1, &["1099511627776 bytes", "33488944"]);
    }
}

#[test]
fn a_new_book_needs_a_folder_that_can_be_written_to() {
    let folder = desk();
    for book in ["nowhere/c", "b/c", "/proc/c", "..", "/"] {
        folder.say(&format!("new {book} --key 1 --value 1 --slots 16")).fails(2, &[]);
    }
    let long = "x".repeat(300);
    folder.say(&format!("new {long} --key 1 --value 1 --slots 16")).fails(2, &["no new file can be made"]);
    folder.run(&["new", "", "--key", "1", "--value", "1", "--slots", "16"]).fails(2, &[]);
    assert_eq!(folder.names(), ["b"]);
}

#[test]
fn a_link_is_followed_and_kept() {
    let folder = desk();
    fs::create_dir(folder.path("shelf")).unwrap();
    fs::rename(folder.path("b"), folder.path("shelf/b")).unwrap();
    symlink("shelf/b", folder.path("link")).unwrap();
    folder.done("lend link 02 07 --hex");
    assert!(fs::symlink_metadata(folder.path("link")).unwrap().is_symlink());
    assert_eq!(folder.done("find shelf/b 02 --hex"), "07\n");
    assert_eq!(folder.names(), ["link", "shelf"]);
}

#[test]
fn permissions_are_kept() {
    let folder = desk();
    fs::set_permissions(folder.path("b"), fs::Permissions::from_mode(0o640)).unwrap();
    folder.done("lend b 02 07 --hex");
    assert_eq!(fs::metadata(folder.path("b")).unwrap().permissions().mode() & 0o777, 0o640);
}

#[test]
fn a_write_protected_book_is_left_alone() {
    let folder = desk();
    fs::set_permissions(folder.path("b"), fs::Permissions::from_mode(0o444)).unwrap();
    folder.say("lend b 02 07 --hex").fails(2, &[]);
    assert_eq!(folder.read("b"), four());
    assert_eq!(folder.done("find b 01 --hex"), "0a\n");
    assert_eq!(folder.names(), ["b"]);
}

#[test]
fn a_second_writer_is_told_so_and_readers_are_not_held_up() {
    let folder = desk();
    folder.write("one.csv", "1,2\n");
    let (writer, _) = Writer::change(&folder.path("b")).unwrap();
    for command in CHANGE {
        folder.say(&command.replace('B', "b")).fails(1, &["another program is changing the book"]);
    }
    assert_eq!(folder.done("find b 01 --hex"), "0a\n");
    assert!(matches!(Writer::change(&folder.path("b")), Err(FileError::Busy)));
    drop(writer);
    assert_eq!(folder.names(), ["b", "one.csv"]);
    folder.done("lend b 02 07 --hex");
}

#[test]
fn a_writer_ends_when_its_book_is_in_place() {
    let folder = desk();
    let (first, _) = Writer::change(&folder.path("b")).unwrap();
    first.replace(&fresh()).unwrap();
    let (second, bytes) = Writer::change(&folder.path("b")).unwrap();
    assert_eq!(bytes, fresh());
    drop(second);
    assert_eq!(file::read(&folder.path("b")).unwrap(), fresh());
}

#[test]
fn what_a_killed_writer_left_is_taken_over() {
    let folder = desk();
    folder.write(".b.new", vec![0x55; 5000]);
    assert_eq!(folder.done("check b"), "b: the book is sound; 4 loans in 16 slots\n");
    folder.done("lend b 02 07 --hex");
    assert_eq!(folder.names(), ["b"]);
    assert_eq!(folder.done("check b"), "b: the book is sound; 5 loans in 16 slots\n");
    folder.write(".c.new", "rubbish");
    folder.done("new c --key 1 --value 1 --slots 16");
    assert_eq!(folder.read("c"), fresh());
}

#[test]
fn what_is_no_draft_of_ours_is_left_alone() {
    let folder = desk();
    fs::hard_link(folder.path("b"), folder.path(".b.new")).unwrap();
    folder.say("lend b 02 07 --hex").fails(2, &[".b.new", "in the way"]);
    assert_eq!(folder.read("b"), four());
    fs::remove_file(folder.path(".b.new")).unwrap();
    folder.write("other", "precious");
    symlink("other", folder.path(".b.new")).unwrap();
    folder.say("lend b 02 07 --hex").fails(2, &["in the way"]);
    assert_eq!(folder.read("other"), b"precious");
    fs::remove_file(folder.path(".b.new")).unwrap();
    fs::create_dir(folder.path(".b.new")).unwrap();
    folder.say("lend b 02 07 --hex").fails(2, &["in the way"]);
}

#[test]
fn without_room_for_the_new_file_the_old_one_stands() {
    let folder = Folder::new();
    folder.done("new b --key 13 --value 20 --slots 1024");
    let before = folder.read("b");
    // The shell lets no file grow beyond a few thousand bytes.
    let line = format!("trap '' XFSZ; ulimit -f 4; exec {} lend b 4006381333931 Luna", env!("CARGO_BIN_EXE_loanbook"));
    let output = Command::new("sh").args(["-c", &line]).current_dir(folder.path("")).output().unwrap();
    Said::of(output).fails(2, &["the new file can't be written, so the old one stands as it was"]);
    assert_eq!(folder.read("b"), before);
    assert_eq!(folder.names(), ["b"]);
}

#[test]
fn many_writers_at_once_lose_no_loan() {
    let folder = Folder::new();
    folder.done("new b --key 2 --value 2 --slots 64");
    let lend = |key: String| {
        let until = Instant::now() + Duration::from_secs(30);
        loop {
            let said = folder.run(&["lend", "b", &key, &key]);
            match said.status {
                0 => return,
                _ => said.fails(1, &["another program is changing the book"]),
            }
            assert!(Instant::now() < until, "no turn for {key}");
        }
    };
    std::thread::scope(|scope| {
        for first in 1..=4 {
            scope.spawn(move || (0..8).for_each(|second| lend(format!("{first}{second}"))));
        }
    });
    for key in (1..=4).flat_map(|first| (0..8).map(move |second| format!("{first}{second}"))) {
        assert_eq!(folder.done(&format!("find b {key}")), format!("{key}\n"));
    }
    assert_eq!(folder.done("check b"), "b: the book is sound; 32 loans in 64 slots\n");
    assert_eq!(folder.names(), ["b"]);
}

#[test]
fn a_draft_that_just_became_the_book_is_never_written_to() {
    // Writers in one program, without pause: one often opens the draft that the one before it is about to rename.
    let folder = Folder::new();
    folder.write("b", 0u64.to_le_bytes());
    let path = folder.path("b");
    let done = std::sync::atomic::AtomicU64::new(0);
    let until = Instant::now() + Duration::from_secs(3);
    let write = || {
        while Instant::now() < until {
            let (writer, bytes) = match Writer::change(&path) {
                Err(FileError::Busy) => continue,
                taken => taken.expect("the file can be had"),
            };
            let number = u64::from_le_bytes(bytes.try_into().expect("the file is whole"));
            writer.replace(&(number + 1).to_le_bytes()).expect("the draft is still there");
            done.fetch_add(1, std::sync::atomic::Ordering::Relaxed);
        }
    };
    std::thread::scope(|scope| (0..4).for_each(|_| drop(scope.spawn(write))));
    assert_eq!(folder.read("b"), done.into_inner().to_le_bytes());
    assert_eq!(folder.names(), ["b"]);
}

/// Kills a command again and again, each time a little later, and asserts that the book is the one before or after.
/// `command` names the command of a round, and `change` does to a book in memory what it should do.
fn kill(folder: &Folder, command: impl Fn(usize) -> Vec<String>, change: impl Fn(usize, &mut Book<Vec<u8>>)) {
    const ROUNDS: usize = 100;
    let timed = |_| {
        let begun = Instant::now();
        folder.run(&command(0));
        begun.elapsed()
    };
    let whole = (0..3).map(timed).min().unwrap();
    let mut before = folder.read("b");
    let (mut kept, mut changed) = (0, 0);
    for round in 1..=ROUNDS {
        let mut book = Book::open_as_stated(before.clone()).unwrap();
        change(round, &mut book);
        let after = book.into_bytes();
        assert_ne!(before, after, "a round that changes nothing tells nothing");

        let mut child = folder.command(&command(round)).stdout(Stdio::null()).stderr(Stdio::null()).spawn().unwrap();
        std::thread::sleep(whole * 2 * round as u32 / ROUNDS as u32);
        child.kill().unwrap();
        child.wait().unwrap();

        let found = folder.read("b");
        assert!(found == before || found == after, "round {round}: neither the book before nor the one after");
        assert!(folder.names().iter().all(|name| ["b", ".b.new", "many.csv", "other.csv"].contains(&name.as_str())));
        if found == before {
            kept += 1;
        } else {
            changed += 1;
        }
        before = found;
    }
    assert!(kept > 0 && changed > 0, "{kept} kept, {changed} changed: the kills came too early or too late to tell");
    folder.done("check b");
}

#[test]
fn a_lend_that_is_killed_leaves_the_book_before_or_after() {
    let folder = Folder::new();
    folder.done("new b --key 13 --value 20 --slots 4096");
    let value = |round: usize| format!("{:020}", round);
    let command = |round| ["lend", "b", "4006381333931", &value(round)].map(String::from).to_vec();
    kill(&folder, command, |round, book| {
        book.insert(b"4006381333931", value(round).as_bytes()).unwrap();
    });
}

#[test]
fn an_import_that_is_killed_is_taken_whole_or_not_at_all() {
    let folder = Folder::new();
    folder.done("new b --key 5 --value 5 --slots 4096");
    let lines = |value: &str| (10_000..12_000).map(|key| format!("{key},{value}\n")).collect::<String>();
    folder.write("many.csv", lines("Luna"));
    folder.write("other.csv", lines("Sol"));
    // A round that was kept is followed by the same file, so that each round changes something.
    let which = || match Book::open_as_stated(folder.read("b")).unwrap().value(b"10000").unwrap() {
        Some(b"Luna ") => ("other.csv", b"Sol  "),
        _ => ("many.csv", b"Luna "),
    };
    let command = |_| ["import", "b", which().0].map(String::from).to_vec();
    kill(&folder, command, |_, book| {
        let value = which().1;
        (10_000..12_000).for_each(|key: u32| drop(book.insert(key.to_string().as_bytes(), value).unwrap()));
    });
}
