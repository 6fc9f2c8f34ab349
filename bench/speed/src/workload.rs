//! Books, and the keys that are asked of them. The same bytes and the same order go to both sides.
use crate::random::Random;
use oracle::{Table, TABLES};
use tallybramble::native;

pub const VALUE: usize = 8;

pub struct Workload {
    pub table: &'static Table,
    pub slots: usize,
    /// A fresh book, and the book with the held keys in it.
    pub fresh: Vec<u8>,
    pub book: Vec<u8>,
    pub held: Vec<Vec<u8>>,
    pub other: Vec<Vec<u8>>,
}

fn keys(random: &mut Random, k: usize, n: usize) -> Vec<Vec<u8>> {
    let mut keys = vec![vec![0; k]; n];
    keys.iter_mut().for_each(|key| random.fill(key));
    keys
}

impl Workload {
    /// A book of that many slots with `eighths` of them taken.
    pub fn new(k: usize, slots: usize, eighths: usize) -> Workload {
        let table =
            TABLES.iter().find(|table| (table.k, table.v) == (k, VALUE)).expect("a pair of sizes that is compiled in");
        let mut random = Random::new(7);
        let held = keys(&mut random, k, slots * eighths / 8);
        let other = keys(&mut random, k, held.len());
        let mut fresh = vec![0; 32 + slots * (k + VALUE) + slots + 16];
        let mut answer = [0; 8];
        native::init(&mut fresh, k, VALUE, slots, 0, 0, &mut answer);
        let mut book = fresh.clone();
        for key in &held {
            native::insert(&mut book, k, VALUE, key, &[1; VALUE], &mut [0; VALUE], &mut answer);
        }
        let mut mixed = Workload { table, slots, fresh, book, held, other };
        mixed.shuffle(&mut random);
        mixed
    }

    /// Asks in another order than the keys were inserted in.
    fn shuffle(&mut self, random: &mut Random) {
        for i in (1..self.held.len()).rev() {
            let j = random.below(i + 1);
            self.held.swap(i, j);
        }
    }

    /// Held keys and others by turns.
    pub fn mix(&self) -> Vec<Vec<u8>> {
        self.held.iter().zip(&self.other).flat_map(|(held, other)| [held.clone(), other.clone()]).collect()
    }
}
