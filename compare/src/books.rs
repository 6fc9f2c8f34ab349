//! Books to compare on: their sizes, keys that collide, and damage.
use crate::product;
use crate::random::Random;
use crate::rust_says::HEADER;
use oracle::{Table, TABLES};

pub const MIRRORS: usize = 16;

/// The pairs of sizes that both sides know.
pub fn tables() -> impl Iterator<Item = &'static Table> {
    TABLES.iter().filter(|table| (1..=255).contains(&table.k) && table.v <= 255)
}

pub fn table(k: usize, v: usize) -> Option<&'static Table> {
    TABLES.iter().find(|table| (table.k, table.v) == (k, v))
}

pub fn total(k: usize, v: usize, slots: usize) -> usize {
    HEADER + slots * (k + v) + slots + MIRRORS
}

pub fn controls(k: usize, v: usize, slots: usize) -> usize {
    HEADER + slots * (k + v)
}

/// An empty book.
pub fn fresh(table: &Table, slots: usize) -> Vec<u8> {
    let mut book = vec![0; total(table.k, table.v, slots)];
    product::init(&mut book, table.k, table.v, slots, 0, 0);
    book
}

/// Where keys come from: a window of starts and two neighbouring tags, or anywhere.
pub struct Keys {
    pub window: usize,
    pub tag: u32,
    pub narrow: bool,
}

impl Keys {
    pub fn any(random: &mut Random, slots: usize) -> Keys {
        let window = *random.pick(&[1, 4, 16, 40, slots]);
        Keys { window: window.min(slots), tag: random.below(128) as u32, narrow: !random.one_in(3) }
    }

    /// A key of these: aimed where the last chunk leaves room for it, else of few different bytes.
    pub fn draw(&self, random: &mut Random, key: &mut [u8], slots: usize) {
        random.fill(key);
        if self.narrow && matches!(key.len() % 8, 0 | 4) {
            let start = (slots - 3 + random.below(self.window)) % slots;
            let tag = self.tag ^ random.below(2) as u32;
            let middle = if slots < 1 << 16 { random.below(4) << 16 } else { 0 };
            aim(key, tag << 25 | (start | middle) as u32);
        } else if self.narrow {
            let few = [0, 0, 1, 3, 0x11, 0x13, self.tag as u8];
            key.iter_mut().for_each(|byte| *byte = *random.pick(&few));
        }
    }
}

/// Chooses the last four bytes of the last chunk so that the key has this hash: the multiplication can be undone.
fn aim(key: &mut [u8], hash: u32) {
    let width = if key.len().is_multiple_of(8) { 8 } else { 4 };
    let last = key.len() - width;
    let before = before_last(&key[..last]);
    let product = hash.wrapping_mul(inverse(0x2722_0a95));
    let chunk = product ^ (before.rotate_left(5) as u32);
    key[last..last + 4].copy_from_slice(&chunk.to_le_bytes());
}

fn before_last(chunks: &[u8]) -> u64 {
    chunks.chunks(8).fold(0u64, |hash, chunk| {
        let mut word = [0; 8];
        word[..chunk.len()].copy_from_slice(chunk);
        (hash.rotate_left(5) ^ u64::from_le_bytes(word)).wrapping_mul(0x517c_c1b7_2722_0a95)
    })
}

/// The inverse of an odd number modulo 2^32, by Newton's steps.
fn inverse(odd: u32) -> u32 {
    (0..5).fold(odd, |x, _| x.wrapping_mul(2u32.wrapping_sub(odd.wrapping_mul(x))))
}

/// Changes some bytes behind the header, control bytes and mirrors above all.
pub fn damage(random: &mut Random, table: &Table, slots: usize, tag: u8, book: &mut [u8]) {
    let from = controls(table.k, table.v, slots);
    for _ in 0..1 + random.below(12) {
        let any = random.next() as u8;
        let byte = *random.pick(&[0xff, 0x80, 0x81, tag, tag ^ 1, 0, 0x7f, any]);
        let at = match random.below(6) {
            0 => HEADER + random.below(book.len() - HEADER),
            1 | 2 => from + slots + random.below(MIRRORS),
            3 => from + random.below(MIRRORS.min(slots)),
            _ => from + random.below(slots),
        };
        book[at] = byte;
    }
}
