//! The raw table as the crate's typed layer enters it, the data slices taken at each call.
use crate::fxhash::FxHashFn;
use crate::memory_layout::{init_in_place, Allocation};
use crate::raw_table::{RawIter, RawTable, RawTableMut};
use crate::{Config, Factor, HashFn};

struct Sizes<const K: usize, const V: usize>;

impl<const K: usize, const V: usize> Config for Sizes<K, V> {
    type EncodedKey = [u8; K];
    type EncodedValue = [u8; V];
    type H = FxHashFn;
}

/// The calls for one pair of sizes. Keys and values have those sizes, or the call panics.
pub struct Table {
    pub k: usize,
    pub v: usize,
    pub init: fn(&mut [u8], usize, u64, u16),
    /// The header's check alone; the book has 32 bytes or more.
    pub header: fn(&[u8]) -> Result<(), String>,
    pub open: fn(&[u8]) -> Result<(), String>,
    /// The check of the lowest slots; the header is sound.
    pub slots: fn(&[u8], usize) -> Result<(), String>,
    /// The offset of the value in the book; the header is sound, here and below.
    pub find: fn(&[u8], &[u8]) -> Option<usize>,
    /// Whether a value was replaced, which `old` then has.
    pub insert: fn(&mut [u8], &[u8], &[u8], &mut [u8]) -> bool,
    /// Each occupied slot in order, with its control byte.
    pub walk: fn(&[u8], &mut dyn FnMut(usize, u8)),
}

/// The hash of a key of any length.
pub fn hash(key: &[u8]) -> u32 {
    FxHashFn::hash(key)
}

fn init<const K: usize, const V: usize>(book: &mut [u8], slots: usize, count: u64, load: u16) {
    init_in_place::<Sizes<K, V>, _>(book, slots, count as usize, Factor(load));
}

fn unchecked<const K: usize, const V: usize, M: std::borrow::Borrow<[u8]>>(book: M) -> Allocation<Sizes<K, V>, M> {
    // Safe for a sound header; the comparison lends no other to a call that comes here.
    unsafe { Allocation::from_raw_bytes_unchecked(book) }
}

fn header<const K: usize, const V: usize>(book: &[u8]) -> Result<(), String> {
    unchecked::<K, V, _>(book).header().sanity_check::<Sizes<K, V>>(book.len()).map_err(|error| error.0)
}

fn open<const K: usize, const V: usize>(book: &[u8]) -> Result<(), String> {
    match Allocation::<Sizes<K, V>, _>::from_raw_bytes(book) {
        Ok(_) => Ok(()),
        Err(error) => Err(error.0),
    }
}

fn slots<const K: usize, const V: usize>(book: &[u8], n: usize) -> Result<(), String> {
    let allocation = unchecked::<K, V, _>(book);
    let (metadata, data) = allocation.data_slices();
    RawTable::<[u8; K], [u8; V], FxHashFn>::new(metadata, data).sanity_check_hashes(n).map_err(|error| error.0)
}

#[inline]
fn find<const K: usize, const V: usize>(book: &[u8], key: &[u8]) -> Option<usize> {
    let key: &[u8; K] = key.try_into().unwrap();
    let allocation = unchecked::<K, V, _>(book);
    let (metadata, data) = allocation.data_slices();
    let value = RawTable::<[u8; K], [u8; V], FxHashFn>::new(metadata, data).find(key)?.as_ptr() as usize;
    Some(value - book.as_ptr() as usize)
}

#[inline]
fn insert<const K: usize, const V: usize>(book: &mut [u8], key: &[u8], value: &[u8], old: &mut [u8]) -> bool {
    let key: [u8; K] = key.try_into().unwrap();
    let value: [u8; V] = value.try_into().unwrap();
    let mut allocation = unchecked::<K, V, _>(book);
    let replaced = allocation.with_mut_parts(|_, metadata, data| RawTableMut::<_, _, FxHashFn>::new(metadata, data).insert(key, value));
    if let Some(value) = replaced {
        old.copy_from_slice(&value);
    }
    replaced.is_some()
}

fn walk<const K: usize, const V: usize>(book: &[u8], each: &mut dyn FnMut(usize, u8)) {
    let allocation = unchecked::<K, V, _>(book);
    let (metadata, data) = allocation.data_slices();
    let first = data.as_ptr() as usize;
    for (control, entry) in RawIter::new(metadata, data) {
        each((entry.key.as_ptr() as usize - first) / (K + V), control);
    }
}

const fn table<const K: usize, const V: usize>() -> Table {
    Table {
        k: K,
        v: V,
        init: init::<K, V>,
        header: header::<K, V>,
        open: open::<K, V>,
        slots: slots::<K, V>,
        find: find::<K, V>,
        insert: insert::<K, V>,
        walk: walk::<K, V>,
    }
}

macro_rules! tables {
    ($(($k:literal, $v:literal)),*) => { &[$(table::<$k, $v>()),*] };
}

/// The pairs of sizes that are compiled in. The first three have no counterpart here: they show differences.
#[rustfmt::skip]
pub static TABLES: &[Table] = tables![
    (0, 1), (256, 1), (1, 256),
    (1, 0), (1, 1), (1, 8), (2, 2), (3, 5), (4, 0), (4, 2), (4, 6), (5, 3), (7, 1), (8, 0), (8, 4), (8, 8), (9, 7), (12, 4),
    (13, 8), (13, 32), (15, 1), (16, 16), (17, 2), (20, 10), (24, 8), (31, 1), (32, 8), (32, 32), (33, 5), (64, 1),
    (100, 50), (127, 128), (1, 255), (8, 255), (254, 1), (255, 0), (255, 13), (255, 255)
];
