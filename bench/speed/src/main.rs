//! Speed of the proved library beside the Rust: one process, the same books and keys, turn about.
#[path = "../../../compare/src/random.rs"]
#[allow(dead_code)]
mod random;
mod workload;

use std::hint::black_box;
use std::time::Instant;
use tallybramble::native;
use workload::{Workload, VALUE};

const ROUNDS: usize = 15;
const CALLS: usize = 200_000;

type Side<'a> = Box<dyn FnMut(&mut [u8]) + 'a>;

/// One kind of call: the book that it starts from, how many calls a pass makes, and a pass of either side.
struct Task<'a> {
    name: &'static str,
    book: &'a [u8],
    calls: usize,
    rust: Side<'a>,
    here: Side<'a>,
}

fn finds<'a>(name: &'static str, work: &'a Workload, keys: Vec<Vec<u8>>) -> Task<'a> {
    let (table, k, theirs) = (work.table, work.table.k, keys.clone());
    Task {
        name,
        book: &work.book,
        calls: keys.len(),
        rust: Box::new(move |book| {
            for key in &theirs {
                black_box((table.find)(book, key));
            }
        }),
        here: Box::new(move |book| {
            let mut answer = [0; 8];
            for key in &keys {
                native::find(book, k, VALUE, key, &mut answer);
                black_box(answer[2]);
            }
        }),
    }
}

fn inserts<'a>(name: &'static str, work: &'a Workload, book: &'a [u8]) -> Task<'a> {
    let (table, k, keys) = (work.table, work.table.k, &work.held);
    Task {
        name,
        book,
        calls: keys.len(),
        rust: Box::new(move |book| {
            let mut old = [0; VALUE];
            for key in keys {
                black_box((table.insert)(book, key, &[2; VALUE], &mut old));
            }
        }),
        here: Box::new(move |book| {
            let (mut old, mut answer) = ([0; VALUE], [0; 8]);
            for key in keys {
                native::insert(book, k, VALUE, key, &[2; VALUE], &mut old, &mut answer);
                black_box(answer[2]);
            }
        }),
    }
}

/// The whole-book check; of it the Rust has only rows 11 and 12.
fn check(work: &Workload) -> Task<'_> {
    let (table, k, slots) = (work.table, work.table.k, work.slots);
    Task {
        name: "check",
        book: &work.book,
        calls: slots,
        rust: Box::new(move |book| {
            black_box((table.slots)(book, slots).is_ok());
        }),
        here: Box::new(move |book| {
            let mut answer = [0; 8];
            native::check(book, k, VALUE, &mut answer);
            black_box(answer[1]);
        }),
    }
}

fn tasks(work: &Workload) -> Vec<Task<'_>> {
    vec![
        finds("find, hits", work, work.held.clone()),
        finds("find, misses", work, work.other.clone()),
        finds("find, mixed", work, work.mix()),
        inserts("insert, new", work, &work.fresh),
        inserts("insert, replacing", work, &work.book),
        check(work),
    ]
}

/// Nanoseconds a call, over as many passes as make up `CALLS`; the book is put back before each, untimed.
fn timed(pass: &mut Side, task_book: &[u8], calls: usize, book: &mut [u8]) -> f64 {
    let passes = CALLS.div_ceil(calls);
    let mut spent = 0.0;
    for _ in 0..passes {
        book.copy_from_slice(task_book);
        let started = Instant::now();
        pass(book);
        spent += started.elapsed().as_secs_f64();
    }
    spent * 1e9 / (passes * calls) as f64
}

fn median(numbers: &mut [f64]) -> f64 {
    numbers.sort_by(f64::total_cmp);
    numbers[numbers.len() / 2]
}

fn measure(mut task: Task, head: &str) {
    let mut book = task.book.to_vec();
    let (mut rust, mut here, mut ratios) = (Vec::new(), Vec::new(), Vec::new());
    for _ in 0..ROUNDS {
        rust.push(timed(&mut task.rust, task.book, task.calls, &mut book));
        here.push(timed(&mut task.here, task.book, task.calls, &mut book));
        ratios.push(here[here.len() - 1] / rust[rust.len() - 1]);
    }
    let ratio = median(&mut ratios);
    println!(
        "| {head} | {} | {:.1} | {:.1} | {ratio:.2} | {:.2} to {:.2} |",
        task.name,
        median(&mut rust),
        median(&mut here),
        ratios[1],
        ratios[ratios.len() - 2]
    );
}

/// Passes of one side of one task, for an instruction counter.
fn passes(words: &[String]) -> Option<()> {
    let [side, name, k, slots, eighths, n] = words else { return None };
    let work = Workload::new(k.parse().ok()?, slots.parse().ok()?, eighths.parse().ok()?);
    let mut task = tasks(&work).into_iter().find(|task| task.name == name)?;
    let mut book = task.book.to_vec();
    for _ in 0..n.parse().ok()? {
        if name == "insert, new" {
            book.copy_from_slice(task.book);
        }
        if side == "rust" {
            (task.rust)(&mut book)
        } else {
            (task.here)(&mut book)
        }
    }
    println!("{}", task.calls);
    Some(())
}

fn main() {
    let words: Vec<String> = std::env::args().skip(1).collect();
    if !words.is_empty() {
        if passes(&words).is_none() {
            eprintln!("usage: speed [SIDE TASK KEY SLOTS EIGHTHS PASSES]");
            std::process::exit(2);
        }
        return;
    }
    println!(
        "| key | slots | full | call | the Rust, ns | here, ns | ratio | spread |\n|---|---|---|---|---|---|---|---|"
    );
    for k in [8, 13, 32] {
        for slots in [1024, 65_536] {
            for eighths in [4, 7] {
                let work = Workload::new(k, slots, eighths);
                for task in tasks(&work) {
                    measure(task, &format!("{k} | {slots} | {eighths}/8"));
                }
            }
        }
    }
}
