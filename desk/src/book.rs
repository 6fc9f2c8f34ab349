//! A book over any bytes, lent or owned: the proved calls with Rust's types.

use crate::answer::{self, Answer};
use crate::native;
use crate::refusal::{Lent, Refusal};

const HEADER: usize = 32;
const MIRRORS: usize = 16;

/// The sizes of a book to be made: bytes of a key (1 to 255), bytes of a value (0 to 255), and slots (a power of two
/// from 16 to 65,536).
#[derive(Debug, Clone, Copy, PartialEq, Eq)]
pub struct Sizes {
    /// Bytes of a key.
    pub key: usize,
    /// Bytes of a value.
    pub value: usize,
    /// Slots.
    pub slots: usize,
}

impl Sizes {
    /// How many bytes a book of these sizes has, if there may be one.
    pub fn total(&self) -> Result<usize, Refusal> {
        // No book has 0 bytes, so that of these bytes the length alone is refused where the sizes are right.
        let asked = Answer::of(|told| native::init(&mut [], self.key, self.value, self.slots, 0, 0, told));
        match Refusal::told(&asked) {
            Refusal::Length => Ok(HEADER + self.slots * (self.key + self.value) + self.slots + MIRRORS),
            refusal => Err(refusal),
        }
    }
}

/// Where a search ended.
#[derive(Debug, Clone, Copy, PartialEq, Eq)]
pub enum Found {
    /// The key stands in this slot.
    At {
        /// The slot.
        slot: usize,
        /// How many groups the search examined.
        groups: usize,
    },
    /// The key is not in the book.
    Absent {
        /// How many groups the search examined.
        groups: usize,
    },
}

/// What an insert did.
#[derive(Debug, Clone, PartialEq, Eq)]
pub enum Inserted {
    /// The key was not there, and now stands in this slot.
    New {
        /// The slot.
        slot: usize,
        /// How many groups the search examined.
        groups: usize,
    },
    /// The key was there, and its value was overwritten.
    Replaced {
        /// The slot.
        slot: usize,
        /// How many groups the search examined.
        groups: usize,
        /// The value before.
        old: Vec<u8>,
    },
}

/// A key and its value, as they stand in a slot.
#[derive(Debug, Clone, Copy, PartialEq, Eq)]
pub struct Entry<'b> {
    /// The slot.
    pub slot: usize,
    /// The key's bytes.
    pub key: &'b [u8],
    /// The value's bytes.
    pub value: &'b [u8],
}

/// A book whose opening was not refused, over bytes that are lent (`&[u8]`, `&mut [u8]`) or owned (`Vec<u8>`).
#[derive(Debug, Clone)]
pub struct Book<B> {
    bytes: B,
    key: usize,
    value: usize,
}

impl<B: AsRef<[u8]>> Book<B> {
    /// Opens a book of these key and value sizes: its header and its first ten slots are tested.
    pub fn open(bytes: B, key: usize, value: usize) -> Result<Self, Refusal> {
        fine(Answer::of(|told| native::open(bytes.as_ref(), key, value, told)))?;
        Ok(Book { bytes, key, value })
    }

    /// Opens a book of whatever sizes its header states.
    pub fn open_as_stated(bytes: B) -> Result<Self, Refusal> {
        let (key, value) = stated_sizes(bytes.as_ref());
        Self::open(bytes, key, value)
    }

    /// The bytes of a key.
    pub fn key_size(&self) -> usize {
        self.key
    }

    /// The bytes of a value.
    pub fn value_size(&self) -> usize {
        self.value
    }

    /// The number of slots.
    pub fn slots(&self) -> usize {
        let stated = self.bytes().get(16..24).and_then(|part| part.try_into().ok());
        stated.map_or(0, |part| u64::from_le_bytes(part) as usize)
    }

    /// The whole book.
    pub fn bytes(&self) -> &[u8] {
        self.bytes.as_ref()
    }

    /// Gives the bytes back.
    pub fn into_bytes(self) -> B {
        self.bytes
    }

    /// Searches a key.
    pub fn find(&self, key: &[u8]) -> Result<Found, Refusal> {
        self.fits(Lent::Key, key)?;
        let answer = Answer::of(|told| native::find(self.bytes(), self.key, self.value, key, told));
        let groups = answer.count;
        match answer.outcome {
            answer::AT_SLOT => Ok(Found::At { slot: answer.slot, groups }),
            answer::ABSENT => Ok(Found::Absent { groups }),
            _ => Err(Refusal::told(&answer)),
        }
    }

    /// The value of a key, if the key is in the book.
    pub fn value(&self, key: &[u8]) -> Result<Option<&[u8]>, Refusal> {
        self.fits(Lent::Key, key)?;
        let answer = Answer::of(|told| native::value(self.bytes(), self.key, self.value, key, told));
        match answer.outcome {
            answer::AT_SLOT => Ok(Some(part(self.bytes(), answer.offset, answer.length))),
            answer::ABSENT => Ok(None),
            _ => Err(Refusal::told(&answer)),
        }
    }

    /// All keys with their values, in the order of the slots.
    pub fn entries(&self) -> Entries<'_> {
        Entries { bytes: self.bytes(), key: self.key, value: self.value, next: 0 }
    }

    /// Tests the whole book, as [`check`] does.
    pub fn check(&self) -> Result<(), Refusal> {
        check(self.bytes(), self.key, self.value)
    }

    /// Refuses a key or value of another length than the book's.
    fn fits(&self, lent: Lent, given: &[u8]) -> Result<(), Refusal> {
        let expected = if lent == Lent::Key { self.key } else { self.value };
        match given.len() {
            found if found == expected => Ok(()),
            found => Err(Refusal::Lengths { lent, expected, found }),
        }
    }
}

impl<B: AsRef<[u8]> + AsMut<[u8]>> Book<B> {
    /// Makes the bytes a new book without keys, whatever stood in them; they must be as many as [`Sizes::total`] says.
    /// The item count and the load factor in the header are 0: neither is kept up or obeyed.
    pub fn create(mut bytes: B, sizes: Sizes) -> Result<Self, Refusal> {
        fine(Answer::of(|told| native::init(bytes.as_mut(), sizes.key, sizes.value, sizes.slots, 0, 0, told)))?;
        Ok(Book { bytes, key: sizes.key, value: sizes.value })
    }

    /// Writes a key with its value, or a new value over a key's old one.
    pub fn insert(&mut self, key: &[u8], value: &[u8]) -> Result<Inserted, Refusal> {
        self.fits(Lent::Key, key)?;
        self.fits(Lent::Value, value)?;
        let mut old = vec![0; self.value];
        let bytes = self.bytes.as_mut();
        let answer = Answer::of(|told| native::insert(bytes, self.key, self.value, key, value, &mut old, told));
        let (slot, groups) = (answer.slot, answer.count);
        match answer.outcome {
            answer::NEW => Ok(Inserted::New { slot, groups }),
            answer::REPLACED => Ok(Inserted::Replaced { slot, groups, old }),
            _ => Err(Refusal::told(&answer)),
        }
    }
}

/// The keys and values of a book, in the order of the slots.
#[derive(Debug, Clone)]
pub struct Entries<'b> {
    bytes: &'b [u8],
    key: usize,
    value: usize,
    next: usize,
}

impl<'b> Iterator for Entries<'b> {
    type Item = Entry<'b>;

    fn next(&mut self) -> Option<Entry<'b>> {
        let answer = Answer::of(|told| native::next(self.bytes, self.key, self.value, self.next, told));
        if answer.outcome != answer::AT_SLOT {
            return None;
        }
        self.next = answer.slot + 1;
        let at = HEADER + answer.slot * (self.key + self.value);
        Some(Entry {
            slot: answer.slot,
            key: part(self.bytes, at, self.key),
            value: part(self.bytes, at + self.key, self.value),
        })
    }
}

/// Tests a whole book of these sizes: what opening tests, and every slot, every mirror and every key's search.
pub fn check(bytes: &[u8], key: usize, value: usize) -> Result<(), Refusal> {
    fine(Answer::of(|told| native::check(bytes, key, value, told)))
}

/// The key and value sizes that a header states. Where no book can state them, 1 and 0: what is wrong with the bytes
/// is then refused in its turn.
pub fn stated_sizes(bytes: &[u8]) -> (usize, usize) {
    let stated = |offset: usize| bytes.get(offset).map_or(0, |&size| usize::from(size));
    (stated(5).max(1), stated(6))
}

/// The answer of a call that has nothing more to tell.
fn fine(answer: Answer) -> Result<(), Refusal> {
    match answer.outcome {
        answer::FINE => Ok(()),
        _ => Err(Refusal::told(&answer)),
    }
}

/// A part of a book, empty where the book has no such part.
fn part(bytes: &[u8], offset: usize, length: usize) -> &[u8] {
    bytes.get(offset..).and_then(|rest| rest.get(..length)).unwrap_or_default()
}
