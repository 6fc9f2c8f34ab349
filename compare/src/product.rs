//! The proved calls, each giving its eight numbers.
use tallybramble::native;
pub use tallybramble::native::Numbers;

/// The room before a call holds numbers that no answer has.
fn told(call: impl FnOnce(&mut Numbers)) -> Numbers {
    let mut answer = [u64::MAX; 8];
    call(&mut answer);
    answer
}

pub fn init(book: &mut [u8], k: usize, v: usize, slots: usize, count: u64, load: u16) -> Numbers {
    told(|answer| native::init(book, k, v, slots, count, load, answer))
}

pub fn open(book: &[u8], k: usize, v: usize) -> Numbers {
    told(|answer| native::open(book, k, v, answer))
}

pub fn check(book: &[u8], k: usize, v: usize) -> Numbers {
    told(|answer| native::check(book, k, v, answer))
}

pub fn find(book: &[u8], k: usize, v: usize, key: &[u8]) -> Numbers {
    told(|answer| native::find(book, k, v, key, answer))
}

pub fn value(book: &[u8], k: usize, v: usize, key: &[u8]) -> Numbers {
    told(|answer| native::value(book, k, v, key, answer))
}

pub fn insert(book: &mut [u8], k: usize, v: usize, key: &[u8], value: &[u8], old: &mut [u8]) -> Numbers {
    told(|answer| native::insert(book, k, v, key, value, old, answer))
}

pub fn next(book: &[u8], k: usize, v: usize, from: usize) -> Numbers {
    told(|answer| native::next(book, k, v, from, answer))
}
