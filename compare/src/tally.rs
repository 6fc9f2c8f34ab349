//! How many of each kind were compared, and what is said where the two sides disagree.
use crate::product::Numbers;
use std::collections::BTreeMap;

#[derive(Default)]
pub struct Tally {
    kinds: BTreeMap<&'static str, u64>,
}

/// A call, so that a disagreement can be told.
pub struct Call<'a> {
    pub name: &'a str,
    pub k: usize,
    pub v: usize,
    pub book: &'a [u8],
    pub key: &'a [u8],
}

impl Tally {
    pub fn count(&mut self, kind: &'static str) {
        *self.kinds.entry(kind).or_default() += 1;
    }

    pub fn total(&self) -> u64 {
        self.kinds.values().sum()
    }

    pub fn print(&self) {
        for (kind, n) in &self.kinds {
            println!("  {n:>12}  {kind}");
        }
        println!("  {:>12}  in all, and no disagreement", self.total());
    }

    pub fn answers(&mut self, kind: &'static str, call: &Call, rust: Numbers, here: Numbers) {
        self.count(kind);
        if rust != here {
            disagree(kind, call, &format!("{rust:?}"), &format!("{here:?}"));
        }
    }

    pub fn bytes(&mut self, kind: &'static str, call: &Call, rust: &[u8], here: &[u8]) {
        self.count(kind);
        if rust != here {
            let at = rust.iter().zip(here).position(|(a, b)| a != b);
            disagree(kind, call, &format!("{} bytes, differing at {at:?}: {}", rust.len(), hex(rust)), &hex(here));
        }
    }
}

fn hex(bytes: &[u8]) -> String {
    let shown: String = bytes.iter().take(2048).map(|byte| format!("{byte:02x}")).collect();
    if bytes.is_empty() {
        "-".into()
    } else {
        shown + if bytes.len() > 2048 { ".." } else { "" }
    }
}

/// Tells the disagreement and ends the comparison.
pub fn disagree(kind: &str, call: &Call, rust: &str, here: &str) -> ! {
    println!("DISAGREEMENT in {kind}");
    println!("  call: {} K={} V={} key={}", call.name, call.k, call.v, hex(call.key));
    println!("  book: {}", hex(call.book));
    println!("  the Rust: {rust}\n  here:     {here}");
    std::process::exit(1);
}
