//! `show`: a picture of a book.

use crate::arguments::{Asked, Form};
use crate::desk::{self, Loans};
use crate::failure::{Ending, Failure};
use crate::json::Object;
use crate::picture::{bar, histogram, percent, ranges, regions};
use crate::text::{self, counted, thousands};
use std::io::Write;
use tallybramble::Found;

pub const FORM: Form = Form {
    name: "show",
    words: &["BOOK"],
    switches: &["--json"],
    numbers: &[],
    help: "\
loanbook show BOOK [--json]

Draws the book: its sizes, how many slots are taken, in all and in each
sixteenth of the book, and how many groups of eight slots a search examines
until it finds its key, for all keys of the book.

  --json   the same numbers as JSON
",
    run,
};

/// Into how many regions the slots are cut.
const REGIONS: usize = 16;

/// What there is to draw.
#[derive(Debug)]
struct Census {
    slots: usize,
    loans: usize,
    /// Slots taken, by region.
    taken: Vec<usize>,
    /// Keys by the groups of their search, up to the longest.
    searches: Vec<((usize, usize), usize)>,
    /// The sum of all searches, and the longest.
    groups: usize,
    longest: usize,
    /// Keys to which their search does not come.
    strays: usize,
}

fn run(asked: &Asked, out: &mut dyn Write) -> Result<Ending, Failure> {
    let name = text::path(asked.book());
    let book = desk::open(asked.book())?;
    let census = census(&book).map_err(|refusal| Failure::row(&name, refusal))?;
    if asked.has("--json") {
        writeln!(out, "{}", json(&name, &book, &census))?;
        return Ok(Ending::Done);
    }
    let sizes = format!("keys of {}, values of {}", bytes(book.key_size()), bytes(book.value_size()));
    writeln!(out, "{name}: {sizes}, {} slots; {}", thousands(book.slots()), bytes(book.bytes().len()))?;
    draw(&census, out)?;
    Ok(Ending::Done)
}

fn census(book: &Loans) -> Result<Census, tallybramble::Refusal> {
    let slots = book.slots();
    let (mut taken, mut by_groups) = (vec![0; REGIONS], vec![0; slots / 8 + 1]);
    let (mut loans, mut groups_in_all, mut longest, mut strays) = (0, 0, 0, 0);
    for entry in book.entries() {
        loans += 1;
        add(&mut taken, entry.slot * REGIONS / slots);
        match book.find(entry.key)? {
            Found::At { slot, groups } if slot == entry.slot => {
                add(&mut by_groups, groups);
                groups_in_all += groups;
                longest = longest.max(groups);
            }
            _ => strays += 1,
        }
    }
    let keys = |&(from, to): &(usize, usize)| by_groups.get(from..=to).unwrap_or_default().iter().sum();
    let reached = ranges(slots / 8).into_iter().filter(|&(from, _)| from <= longest);
    let searches = reached.map(|range| (range, keys(&range))).collect();
    Ok(Census { slots, loans, taken, searches, groups: groups_in_all, longest, strays })
}

fn draw(census: &Census, out: &mut dyn Write) -> std::io::Result<()> {
    let Census { slots, loans, .. } = *census;
    writeln!(out, "\n{} of {} slots are taken ({})", thousands(loans), thousands(slots), percent(loans, slots))?;
    writeln!(out, "  {:<17}{}", "all", bar(loans, slots))?;
    write!(out, "{}", regions(&census.taken, slots / REGIONS))?;
    if loans == 0 {
        return Ok(());
    }
    writeln!(out, "\ngroups that the search for a key in the book examines")?;
    write!(out, "{}", histogram(&census.searches, loans))?;
    let found = (loans - census.strays).max(1);
    let hundredth = census.groups * 100 / found;
    write!(out, "  {}.{:02} on average, {} at most; ", hundredth / 100, hundredth % 100, thousands(census.longest))?;
    writeln!(out, "a search never examines more than {}", thousands(slots / 8))?;
    if census.strays > 0 {
        writeln!(out, "  no search comes to {}: run loanbook check", counted(census.strays, "key"))?;
    }
    Ok(())
}

fn json(name: &str, book: &Loans, census: &Census) -> String {
    let taken: Vec<String> = census.taken.iter().map(usize::to_string).collect();
    let search = |&((from, to), keys): &((usize, usize), usize)| {
        Object::new().number("from", from as u64).number("to", to as u64).number("keys", keys as u64).finish()
    };
    let searches: Vec<String> = census.searches.iter().map(search).collect();
    let mut object = Object::new();
    object.text("outcome", "shown").text("file", name).number("key_size", book.key_size() as u64);
    object.number("value_size", book.value_size() as u64).number("slots", census.slots as u64);
    object.number("bytes", book.bytes().len() as u64).number("loans", census.loans as u64);
    object.list("taken", &taken).list("groups", &searches).number("longest", census.longest as u64);
    object.number("most", census.slots as u64 / 8).number("strays", census.strays as u64).finish()
}

/// Counts one more at a place.
fn add(counts: &mut [usize], place: usize) {
    if let Some(count) = counts.get_mut(place) {
        *count += 1;
    }
}

fn bytes(number: usize) -> String {
    counted(number, "byte")
}
