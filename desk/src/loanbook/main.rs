//! `loanbook`: the loan desk's book, from the command line.

#![forbid(unsafe_code)]

mod arguments;
mod commands;
mod csv;
mod desk;
mod failure;
mod json;
mod picture;
mod progress;
mod text;

use arguments::{Asked, Form};
use failure::{Ending, Failure};
use std::ffi::OsString;
use std::io::{self, BufWriter, Write};
use std::os::unix::ffi::OsStrExt;
use std::process::ExitCode;

const HELP: &str = "\
loanbook keeps a loan book in a file: key the barcode, value the last loan.

  loanbook new BOOK --key N --value N --slots N   make a new book
  loanbook lend BOOK KEY VALUE                    write the last loan of a key
  loanbook find BOOK KEY                          print the last loan of a key
  loanbook list BOOK                              print every key and its loan
  loanbook import BOOK FILE.csv                   write a loan from each line
  loanbook check BOOK                             test the whole book
  loanbook show BOOK                              draw how full the book is

Each has --help, and --json for scripts. Answers come on standard output, words
of error on standard error. The status is 0 for done; 1 for absent, or refused,
and then nothing was changed; 2 for asked wrongly, or a file out of reach.
";

fn main() -> ExitCode {
    let given: Vec<OsString> = std::env::args_os().skip(1).collect();
    let mut out = BufWriter::new(io::stdout().lock());
    let ending = carry_out(&given, &mut out).and_then(|ending| {
        out.flush()?;
        Ok(ending)
    });
    let status = match ending {
        Ok(Ending::Done) => 0,
        Ok(Ending::Absent) => 1,
        // Whoever read the answer has read enough.
        Err(Failure::Output(error)) if error.kind() == io::ErrorKind::BrokenPipe => 0,
        Err(failure) => {
            let _ = writeln!(io::stderr(), "loanbook: {}", failure.words());
            failure.status()
        }
    };
    ExitCode::from(status)
}

/// Carries out what the arguments ask.
fn carry_out(given: &[OsString], out: &mut dyn Write) -> Result<Ending, Failure> {
    let Some((name, rest)) = given.split_first() else {
        return Err(Failure::Misuse(format!("a command is missing\n\n{HELP}")));
    };
    match name.as_bytes() {
        b"--help" | b"-h" | b"help" => help(rest, out),
        b"--version" => say(out, concat!("loanbook ", env!("CARGO_PKG_VERSION"), "\n")),
        name => run(command(name)?, rest, out),
    }
}

fn run(form: &Form, given: &[OsString], out: &mut dyn Write) -> Result<Ending, Failure> {
    let options = given.iter().take_while(|argument| *argument != "--");
    if options.into_iter().any(|argument| argument == "--help" || argument == "-h") {
        return say(out, form.help);
    }
    let asked = Asked::read(form, given)?;
    let ending = (form.run)(&asked, out);
    if let (Err(Failure::Refused(no)), true) = (&ending, asked.has("--json")) {
        writeln!(out, "{}", no.json())?;
        out.flush()?;
    }
    ending
}

/// The help of a command, or of all.
fn help(given: &[OsString], out: &mut dyn Write) -> Result<Ending, Failure> {
    match given.first() {
        Some(name) => say(out, command(name.as_bytes())?.help),
        None => say(out, HELP),
    }
}

fn command(name: &[u8]) -> Result<&'static Form, Failure> {
    let unknown = || Failure::Misuse(format!("there is no command {}; loanbook --help lists them", text::brief(name)));
    commands::named(name).ok_or_else(unknown)
}

fn say(out: &mut dyn Write, words: &str) -> Result<Ending, Failure> {
    out.write_all(words.as_bytes())?;
    Ok(Ending::Done)
}

#[cfg(test)]
mod tests {
    use super::*;

    #[test]
    fn every_help_fits_a_terminal_and_begins_with_its_usage() {
        for form in commands::ALL {
            assert!(form.help.starts_with(&format!("loanbook {} ", form.name)));
            for option in form.words.iter().chain(form.switches).chain(form.numbers) {
                assert!(form.help.contains(option), "{} {option}", form.name);
            }
        }
        let all = commands::ALL.iter().map(|form| form.help).chain([HELP]);
        assert!(all.flat_map(str::lines).all(|line| line.chars().count() <= 80));
    }
}
