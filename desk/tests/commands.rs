//! Every command of `loanbook`: its answers, its refusals in words, and what it leaves in the book.

mod common;

use common::{damaged, four, is_json, Folder, Said};
use std::ffi::OsString;
use std::os::unix::ffi::OsStringExt;
use std::process::Stdio;

/// A folder with the book `b`: keys of 4 bytes, values of 6, 16 slots.
fn desk() -> Folder {
    let folder = Folder::new();
    folder.done("new b --key 4 --value 6 --slots 16");
    folder
}

/// Runs a command that must leave the book as it was.
#[track_caller]
fn unchanged(folder: &Folder, arguments: &[&str]) -> Said {
    let before = folder.read("b");
    let said = folder.run(arguments);
    assert_eq!(folder.read("b"), before, "{arguments:?}");
    assert!(folder.names().iter().all(|name| !name.ends_with(".new")), "{:?}", folder.names());
    said
}

#[test]
fn new_makes_the_documents_book() {
    let folder = Folder::new();
    let answer = folder.done("new b --key 1 --value 1 --slots 16");
    assert_eq!(answer, "b: a new book with keys of 1 byte, values of 1 byte and 16 slots; 96 bytes\n");
    assert_eq!(folder.read("b"), common::fresh());
    assert_eq!(folder.names(), ["b"]);
    let json = folder.done("new c --key=8 --value=4 --slots=16 --json");
    assert!(is_json(&json) && json.contains(r#""bytes":256"#), "{json}");
}

#[test]
fn new_overwrites_nothing() {
    let folder = desk();
    unchanged(&folder, &["new", "b", "--key", "1", "--value", "1", "--slots", "16"]).fails(1, &["already"]);
    std::os::unix::fs::symlink("nowhere", folder.path("link")).unwrap();
    folder.say("new link --key 1 --value 1 --slots 16").fails(1, &["already"]);
    assert_eq!(folder.names(), ["b", "link"]);
}

#[test]
fn new_refuses_sizes_that_no_book_has() {
    let folder = Folder::new();
    for (line, words) in [
        ("new b --key 0 --value 1 --slots 16", "row 1"),
        ("new b --key 256 --value 1 --slots 16", "row 1"),
        ("new b --key 1 --value 256 --slots 16", "row 1"),
        ("new b --key 1 --value 1 --slots 0", "row 9"),
        ("new b --key 1 --value 1 --slots 24", "row 9"),
        ("new b --key 1 --value 1 --slots 131072", "row 9"),
        ("new b --key 255 --value 255 --slots 18446744073709551615", "row 9"),
    ] {
        folder.say(line).fails(1, &["b: ", words]);
    }
    assert_eq!(folder.names(), [""; 0]);
}

#[test]
fn the_smallest_and_the_largest_book_can_be_made() {
    let folder = Folder::new();
    folder.done("new small --key 1 --value 0 --slots 16");
    assert_eq!(folder.read("small").len(), 80);
    folder.done("new large --key 255 --value 255 --slots 65536");
    assert_eq!(folder.read("large").len(), 33_488_944);
    assert_eq!(folder.done("check large"), "large: the book is sound; 0 loans in 65,536 slots\n");
    assert_eq!(folder.run(&["lend", "small", "7", ""]).out, "7:  (new)\n");
    assert_eq!(folder.done("find small 7"), "\n");
}

#[test]
fn loans_go_out_and_come_back() {
    let folder = desk();
    assert_eq!(folder.done("lend b 0042 Luna"), "0042: Luna (new)\n");
    assert_eq!(folder.done("lend b 1042 Sol"), "1042: Sol (new)\n");
    assert_eq!(folder.done("find b 0042"), "Luna\n");
    assert_eq!(folder.done("lend b 0042 home"), "0042: home (was: Luna)\n");
    assert_eq!(folder.done("find b 0042"), "home\n");
    assert_eq!(folder.done("find b 1042"), "Sol\n");
    assert_eq!(folder.names(), ["b"]);
}

#[test]
fn what_lend_writes_is_what_the_rules_say() {
    let folder = Folder::new();
    folder.done("new b --key 1 --value 1 --slots 16");
    for (key, value) in [("01", "0a"), ("11", "0b"), ("03", "0c"), ("13", "0d")] {
        folder.done(&format!("lend b {key} {value} --hex"));
    }
    assert_eq!(folder.read("b"), four());
}

#[test]
fn an_absent_key_is_an_answer_with_status_1() {
    let folder = desk();
    unchanged(&folder, &["find", "b", "7777"]).fails(1, &["'7777' is not in the book"]);
    let said = unchanged(&folder, &["find", "b", "7777", "--json"]);
    assert_eq!(
        (said.status, said.out.as_str()),
        (1, "{\"outcome\":\"absent\",\"key\":\"7777\",\"key_hex\":\"37373737\",\"groups\":1}\n")
    );
}

#[test]
fn a_barcode_without_its_zeros_is_refused_with_both_lengths() {
    let folder = desk();
    folder.done("lend b 0042 Luna");
    let words = ["b: '42'", "2 bytes", "keys have 4", "row 13", "nothing was padded"];
    unchanged(&folder, &["find", "b", "42"]).fails(1, &words);
    unchanged(&folder, &["lend", "b", "42", "Sol"]).fails(1, &words);
    unchanged(&folder, &["lend", "b", "00042", "Sol"]).fails(1, &["5 bytes", "keys have 4", "row 13"]);
    unchanged(&folder, &["lend", "b", "", "Sol"]).fails(1, &["''", "0 bytes", "keys have 4"]);
}

#[test]
fn lengths_are_of_bytes_and_not_of_letters() {
    let folder = desk();
    assert_eq!(folder.done("lend b é42 Luna"), "é42: Luna (new)\n");
    unchanged(&folder, &["find", "b", "éé4"]).fails(1, &["5 bytes", "keys have 4"]);
}

#[test]
fn a_long_value_is_refused_and_a_short_one_filled() {
    let folder = desk();
    unchanged(&folder, &["lend", "b", "0042", "Luna Bar"]).fails(1, &["8 bytes", "values have 6", "row 13"]);
    assert_eq!(folder.run(&["lend", "b", "0042", " L "]).out, "0042:  L (new)\n");
    assert_eq!(folder.done("find b 30303432 --hex"), "204c20202020\n");
}

#[test]
fn hex_is_exact() {
    let folder = desk();
    folder.done("lend b 0042 Luna");
    assert_eq!(folder.done("find b 30303432 --hex"), "4c756e612020\n");
    assert_eq!(folder.done("lend b 00FF0a2c 000102030405 --hex"), "00ff0a2c: 000102030405 (new)\n");
    assert_eq!(folder.done("find b 00ff0A2C --hex"), "000102030405\n");
    unchanged(&folder, &["lend", "b", "00ff0a2c", "00", "--hex"]).fails(1, &["1 byte", "values have 6"]);
    unchanged(&folder, &["find", "b", "00ff", "--hex"]).fails(1, &["2 bytes", "keys have 4"]);
    unchanged(&folder, &["find", "b", "00ff0a2", "--hex"]).fails(2, &["pairs"]);
    unchanged(&folder, &["find", "b", "00ff0axx", "--hex"]).fails(2, &["hex digits"]);
}

#[test]
fn list_gives_every_loan_in_the_order_of_the_slots() {
    let folder = Folder::new();
    folder.write("b", four());
    assert_eq!(folder.done("list b --hex"), "13\t0d\n01\t0a\n11\t0b\n03\t0c\n");
    assert_eq!(folder.done("list b"), "hex:13\thex:0d\nhex:01\thex:0a\nhex:11\thex:0b\nhex:03\thex:0c\n");
    let json = folder.done("list b --json");
    assert!(is_json(&json), "{json}");
    assert!(
        json.contains("{\"key\":\"\\u0001\",\"key_hex\":\"01\",\"value\":\"\\u000a\",\"value_hex\":\"0a\",\"slot\":5}"),
        "{json}"
    );
    folder.write("empty", common::fresh());
    assert_eq!(folder.done("list empty"), "");
    assert_eq!(folder.done("list empty --json"), "[]\n");
}

#[test]
fn keys_that_are_no_text_are_taken_byte_for_byte_and_shown_in_hex() {
    let folder = desk();
    let bytes = |bytes: &[u8]| OsString::from_vec(bytes.to_vec());
    let key = bytes(b"\xff\xfe\x1b[");
    let said = folder.run(&[bytes(b"lend"), bytes(b"b"), key.clone(), bytes(b"\xc3")]);
    assert_eq!((said.status, said.out.as_str()), (0, "hex:fffe1b5b: hex:c3 (new)\n"));
    assert_eq!(folder.run(&[bytes(b"find"), bytes(b"b"), key.clone()]).out, "hex:c3\n");
    let json = folder.run(&[bytes(b"find"), bytes(b"b"), key, bytes(b"--json")]).out;
    assert!(is_json(&json) && json.contains(r#""key":null,"key_hex":"fffe1b5b","value":null"#), "{json}");
}

#[test]
fn two_dashes_end_the_options() {
    let folder = desk();
    folder.say("lend b -042 Luna").fails(2, &["-042", "--help"]);
    assert_eq!(folder.done("lend b -- -042 --hex"), "-042: --hex (new)\n");
    assert_eq!(folder.done("find b --json -- -042").matches("2d303432").count(), 1);
}

#[test]
fn check_passes_a_sound_book() {
    let folder = Folder::new();
    folder.write("b", four());
    assert_eq!(folder.done("check b"), "b: the book is sound; 4 loans in 16 slots\n");
    assert_eq!(folder.done("check b --json"), "{\"outcome\":\"sound\",\"file\":\"b\",\"loans\":4,\"slots\":16}\n");
}

#[test]
fn a_damaged_book_is_refused_in_words_and_never_changed() {
    for (row, words, bytes) in damaged() {
        let folder = Folder::new();
        folder.write("b", &bytes);
        folder.write("one.csv", "1,2\n");
        let row = format!("(row {row})");
        unchanged(&folder, &["check", "b"]).fails(1, &[words, &row, "restore"]);
        unchanged(&folder, &["lend", "b", "1", "2"]).fails(1, &[words, &row]);
        unchanged(&folder, &["import", "b", "one.csv"]).fails(1, &[words, &row]);
        let said = unchanged(&folder, &["check", "b", "--json"]);
        assert!(said.status == 1 && is_json(&said.out) && said.out.contains(r#""outcome":"refused""#), "{said:?}");
    }
}

#[test]
fn a_control_byte_is_told_with_its_numbers() {
    let folder = Folder::new();
    let mut book = four();
    book[69] = 5;
    folder.write("b", &book);
    let json = folder.say("check b --json").out;
    assert!(json.contains(r#""row":12,"line":null,"slot":5,"expected":19,"found":5,"#), "{json}");
}

#[test]
fn reading_a_book_makes_the_tests_of_opening() {
    for (row, words, bytes) in damaged() {
        let folder = Folder::new();
        folder.write("b", &bytes);
        for line in ["find b 1", "list b", "show b"] {
            let said = folder.say(line);
            match row {
                2..=12 => said.fails(1, &[words]),
                _ => assert!(said.err.is_empty() || said.err.contains("not in the book"), "{said:?}"),
            }
        }
    }
}

#[test]
fn show_draws_within_80_columns() {
    let folder = Folder::new();
    folder.write("b", four());
    let picture = folder.done("show b");
    assert!(picture.contains("4 of 16 slots are taken (25.0 %)"), "{picture}");
    assert!(picture.contains("4 (100.0 %)"), "{picture}");
    assert!(picture.lines().all(|line| line.chars().count() <= 80), "{picture}");
    let full_bars = picture.lines().filter(|line| line.ends_with(" 1 of 1")).count();
    assert_eq!(full_bars, 4, "{picture}");
    let json = folder.done("show b --json");
    assert!(
        is_json(&json)
            && json.contains(r#""taken":[1,0,0,0,0,1,1,0,0,0,0,0,0,0,0,1],"groups":[{"from":1,"to":1,"keys":4}]"#),
        "{json}"
    );
    folder.write("empty", common::fresh());
    assert!(folder.done("show empty").contains("0 of 16 slots are taken (0.0 %)"));
}

#[test]
fn show_counts_the_groups_of_each_search() {
    // Keys 01 to b1 all start at slot 5: eight stand in the first group, and four in the second.
    let folder = Folder::new();
    folder.done("new b --key 1 --value 1 --slots 16");
    for high in 0..12 {
        folder.done(&format!("lend b {high:x}1 00 --hex"));
    }
    let json = folder.done("show b --json");
    assert!(
        json.contains(r#""groups":[{"from":1,"to":1,"keys":8},{"from":2,"to":2,"keys":4}],"longest":2,"most":2"#),
        "{json}"
    );
    assert!(folder.done("show b").contains("1.33 on average, 2 at most;"));
}

#[test]
fn a_full_book_is_refused_in_words() {
    let folder = Folder::new();
    folder.done("new b --key 2 --value 1 --slots 16");
    let sixteen: String = (10..26).map(|key| format!("{key},x\n")).collect();
    folder.write("sixteen.csv", sixteen);
    assert_eq!(folder.done("import b sixteen.csv"), "b: 16 lines taken, 16 new and 0 replaced\n");
    unchanged(&folder, &["lend", "b", "99", "x"]).fails(1, &["full", "2 groups", "row 14", "more slots"]);
    assert_eq!(folder.done("lend b 10 y"), "10: y (was: x)\n");
    folder.write("more.csv", "11,z\n12,z\n99,z\n");
    unchanged(&folder, &["import", "b", "more.csv"]).fails(1, &["more.csv: line 3: ", "full", "row 14"]);
    assert_eq!(folder.done("check b"), "b: the book is sound; 16 loans in 16 slots\n");
    assert!(folder.done("show b").contains("(100.0 %)"));
}

#[test]
fn a_smaller_books_loans_can_be_brought_to_a_larger_one() {
    let folder = desk();
    folder.done("lend b 0042 Luna");
    folder.done("lend b 00ff0a2c 000102030405 --hex");
    folder.done("new larger --key 4 --value 6 --slots 64");
    folder.write("all.csv", folder.done("list b --hex").replace('\t', ","));
    folder.done("import larger all.csv --hex");
    assert_eq!(folder.done("find larger 0042"), "Luna\n");
    assert_eq!(folder.done("find larger 00ff0a2c --hex"), "000102030405\n");
}

#[test]
fn import_takes_every_line() {
    let folder = desk();
    folder.done("lend b 0042 Luna");
    folder.write("day.csv", "\u{feff}0042,home\r\n\r\n\"1042\",\"a, \"\"b\"\r\n2042,");
    assert_eq!(folder.done("import b day.csv"), "b: 3 lines taken, 2 new and 1 replaced\n");
    assert_eq!(folder.done("find b 0042"), "home\n");
    assert_eq!(folder.done("find b 1042"), "a, \"b\n");
    assert_eq!(folder.done("find b 2042"), "\n");
    folder.write("none.csv", "");
    assert_eq!(
        folder.done("import b none.csv --json"),
        "{\"outcome\":\"done\",\"lines\":0,\"new\":0,\"replaced\":0}\n"
    );
}

#[test]
fn import_takes_all_lines_or_none() {
    let folder = desk();
    for (text, line, words) in [
        ("0042,Luna\n42,Sol\n1042,Sol\n", 2, "'42': the key has 2 bytes, and this book's keys have 4"),
        ("0042,Luna\n1042,Luna Bar\n", 2, "8 bytes"),
        ("0042,Luna\n\n1042\n", 3, "one field"),
        ("0042,Luna,Sol\n", 1, "more than two fields"),
        ("0042,\"Luna\n", 1, "never closed"),
        ("0042,Lu\"na\n", 1, "double quote"),
        ("0042,\"Lu\"na\n", 1, "closing quote"),
        ("0042,Luna\r1042,Sol\n", 1, "carriage return"),
        ("0042,Luna\n1042,Sol\n0042,Sol\n", 3, "'0042' came in line 1 already"),
        ("barcode,loan\n0042,Luna\n", 1, "--header"),
        ("00420,Luna\n", 1, "5 bytes"),
    ] {
        folder.write("day.csv", text);
        let place = format!("day.csv: line {line}: ");
        unchanged(&folder, &["import", "b", "day.csv"]).fails(1, &[&place, words]);
    }
    let json = unchanged(&folder, &["import", "b", "day.csv", "--json"]).out;
    assert!(is_json(&json) && json.contains(r#""row":13,"line":1,"expected":4,"found":5"#), "{json}");
}

#[test]
fn import_has_options_for_headings_repeats_and_hex() {
    let folder = desk();
    folder.write("day.csv", "barcode;loan\n0042,Luna\n0042,Sol\n");
    folder.say("import b day.csv --header").fails(1, &["line 3", "line 2 already"]);
    assert_eq!(folder.done("import b day.csv --header --repeats"), "b: 2 lines taken, 1 new and 1 replaced\n");
    assert_eq!(folder.done("find b 0042"), "Sol\n");
    folder.write("hex.csv", "00ff0a2c,000102030405\n");
    folder.done("import b hex.csv --hex");
    assert_eq!(folder.done("find b 00ff0a2c --hex"), "000102030405\n");
    folder.write("hex.csv", "00ff0a2c,00010203040g\n");
    unchanged(&folder, &["import", "b", "hex.csv", "--hex"]).fails(1, &["line 1", "hex"]);
}

#[test]
fn import_reads_standard_input() {
    let folder = desk();
    folder.write("day.csv", "0042,Luna\n");
    let input = std::fs::File::open(folder.path("day.csv")).unwrap();
    let said = Said::of(folder.command(&["import", "b", "-"]).stdin(input).output().unwrap());
    assert_eq!((said.status, said.out.as_str()), (0, "b: 1 line taken, 1 new and 0 replaced\n"));
    folder.write("bad.csv", "42,Luna\n");
    let input = std::fs::File::open(folder.path("bad.csv")).unwrap();
    let said = Said::of(folder.command(&["import", "b", "-"]).stdin(input).output().unwrap());
    said.fails(1, &["standard input: line 1: "]);
}

#[test]
fn misuse_ends_with_2_and_says_what_is_wrong() {
    let folder = desk();
    for (line, words) in [
        ("", "there is no command ''"),
        ("borrow", "there is no command 'borrow'; loanbook --help"),
        ("NEW b", "no command"),
        ("new", "BOOK is missing"),
        ("new c", "--key N is missing"),
        ("new c --key 4 --value 6", "--slots N is missing"),
        ("new c --key 4 --value 6 --slots", "--slots needs a number"),
        ("new c --key four --value 6 --slots 16", "'four' is none"),
        ("new c --key -4 --value 6 --slots 16", "'-4' is none"),
        ("new c --key +4 --value 6 --slots 16", "'+4' is none"),
        ("new c --key= --value 6 --slots 16", "'' is none"),
        ("new c --key 4.0 --value 6 --slots 16", "'4.0' is none"),
        ("new c --key 4 --key 4 --value 6 --slots 16", "given twice"),
        ("new c --key 99999999999999999999 --value 6 --slots 16", "too large"),
        ("lend b", "KEY is missing"),
        ("lend b 0042", "VALUE is missing"),
        ("lend b 0042 Luna Bar", "'Bar' is one word too many"),
        ("find b 0042 --slots 16", "there is no option '--slots' here"),
        ("find b 0042 --json=1", "there is no option"),
        ("list", "BOOK is missing"),
        ("list b b", "too many"),
        ("import b", "FILE.csv is missing"),
        ("check b -x", "there is no option '-x' here"),
        ("show --colour b", "--colour"),
        ("help borrow", "no command"),
    ] {
        let arguments: Vec<&str> = line.split(' ').collect();
        unchanged(&folder, &arguments).fails(2, &[words]);
    }
    folder.run::<&str>(&[]).fails(2, &["a command is missing", "loanbook new BOOK"]);
    assert_eq!(folder.names(), ["b"]);
}

#[test]
fn every_command_has_help() {
    let folder = Folder::new();
    for command in ["new", "lend", "find", "list", "import", "check", "show"] {
        let help = folder.done(&format!("{command} --help"));
        assert!(help.starts_with(&format!("loanbook {command} BOOK")), "{help}");
        assert_eq!(folder.done(&format!("help {command}")), help);
        assert_eq!(folder.done(&format!("{command} nobook -h")), help);
        assert!(folder.done("--help").contains(&format!("loanbook {command} BOOK")));
    }
    assert!(folder.done("--version").starts_with("loanbook "));
    assert_eq!(folder.names(), [""; 0]);
}

#[test]
fn a_reader_that_has_read_enough_is_no_error() {
    let folder = Folder::new();
    folder.done("new b --key 5 --value 200 --slots 4096");
    folder.write("many.csv", (10_000..13_000).map(|key| format!("{key},x\n")).collect::<String>());
    folder.done("import b many.csv");
    let mut child =
        folder.command(&["list", "b", "--hex"]).stdout(Stdio::piped()).stderr(Stdio::piped()).spawn().unwrap();
    drop(child.stdout.take());
    let output = child.wait_with_output().unwrap();
    assert_eq!((output.status.code(), output.stderr.as_slice()), (Some(0), &b""[..]));
}

#[test]
fn an_answer_that_can_not_be_written_is_an_error() {
    let folder = desk();
    let full = || std::fs::File::options().write(true).open("/dev/full").unwrap();
    let output = folder.command(&["--help"]).stdout(full()).output().unwrap();
    Said::of(output).fails(2, &["the answer can't be written"]);
    let output = folder.command(&["find", "missing", "0042"]).stderr(full()).output().unwrap();
    assert_eq!(output.status.code(), Some(2));
}
