//! The library over bytes: document 01's examples, every row, and histories against a plain map.

mod common;

use common::{damaged, four, fresh};
use std::collections::HashMap;
use tallybramble::{check, stated_sizes, Book, Found, Inserted, Lent, Refusal, Sizes};

const ONE: Sizes = Sizes { key: 1, value: 1, slots: 16 };

fn new_book() -> Book<Vec<u8>> {
    Book::create(vec![0xaa; 96], ONE).unwrap()
}

#[test]
fn totals_are_the_documents() {
    let total = |key, value, slots| Sizes { key, value, slots }.total();
    assert_eq!(total(1, 1, 16), Ok(96));
    assert_eq!(total(8, 4, 16), Ok(256));
    assert_eq!(total(255, 255, 65_536), Ok(33_488_944));
    assert_eq!(tallybramble::file::LARGEST, 33_488_944);
    assert_eq!(total(0, 1, 16), Err(Refusal::Sizes));
    assert_eq!(total(256, 1, 16), Err(Refusal::Sizes));
    assert_eq!(total(1, 256, 16), Err(Refusal::Sizes));
    for slots in [0, 8, 24, 131_072, usize::MAX] {
        assert_eq!(total(1, 1, slots), Err(Refusal::SlotCount), "{slots}");
    }
}

#[test]
fn a_new_book_has_the_documents_bytes_whatever_stood_there() {
    assert_eq!(new_book().into_bytes(), fresh());
    assert_eq!(Book::create(vec![0; 95], ONE).err(), Some(Refusal::Length));
    let mut lent = vec![7; 97];
    assert_eq!(Book::create(&mut lent[..], ONE).err(), Some(Refusal::Length));
    assert_eq!(lent, vec![7; 97]);
}

#[test]
fn four_loans_have_the_documents_slots_and_bytes() {
    let mut book = new_book();
    for (key, value, slot) in [(0x01, 0x0a, 5), (0x11, 0x0b, 6), (0x03, 0x0c, 15), (0x13, 0x0d, 0)] {
        assert_eq!(book.insert(&[key], &[value]), Ok(Inserted::New { slot, groups: 1 }));
    }
    assert_eq!(book.bytes(), four());
    assert_eq!(book.check(), Ok(()));
    assert_eq!(book.find(&[0x03]), Ok(Found::At { slot: 15, groups: 1 }));
    assert_eq!(book.value(&[0x03]), Ok(Some(&[0x0c][..])));
    assert_eq!(book.find(&[0x02]), Ok(Found::Absent { groups: 1 }));
    assert_eq!(book.value(&[0x02]), Ok(None));
    let pairs: Vec<_> = book.entries().map(|entry| (entry.slot, entry.key[0], entry.value[0])).collect();
    assert_eq!(pairs, [(0, 0x13, 0x0d), (5, 0x01, 0x0a), (6, 0x11, 0x0b), (15, 0x03, 0x0c)]);
}

#[test]
fn a_book_can_be_lent_for_reading_and_for_writing() {
    let mut bytes = four();
    let mut lent = Book::open(&mut bytes[..], 1, 1).unwrap();
    assert_eq!(lent.insert(&[1], &[0x77]), Ok(Inserted::Replaced { slot: 5, groups: 1, old: vec![0x0a] }));
    let read = Book::open_as_stated(&bytes[..]).unwrap();
    assert_eq!(read.value(&[1]), Ok(Some(&[0x77][..])));
    assert_eq!((read.key_size(), read.value_size(), read.slots()), (1, 1, 16));
}

#[test]
fn equal_hashes_are_different_keys() {
    let sizes = Sizes { key: 8, value: 4, slots: 16 };
    let mut book = Book::create(vec![0; 256], sizes).unwrap();
    let (one, other) = ([1, 0, 0, 0, 0, 0, 0, 0], [1, 0, 0, 0, 1, 0, 0, 0]);
    assert_eq!(book.insert(&one, b"Luna"), Ok(Inserted::New { slot: 5, groups: 1 }));
    assert_eq!(book.find(&other), Ok(Found::Absent { groups: 1 }));
    assert_eq!(book.insert(&other, b"Sol "), Ok(Inserted::New { slot: 6, groups: 1 }));
    assert_eq!(book.value(&one), Ok(Some(&b"Luna"[..])));
}

#[test]
fn a_full_book_refuses_a_new_key_and_takes_an_old_one() {
    let mut book = new_book();
    for key in 0..16 {
        assert!(matches!(book.insert(&[key], &[key]), Ok(Inserted::New { .. })));
    }
    let before = book.bytes().to_vec();
    assert_eq!(book.insert(&[16], &[0]), Err(Refusal::Full { groups: 2 }));
    assert_eq!(book.bytes(), before);
    assert_eq!(book.find(&[16]), Ok(Found::Absent { groups: 2 }));
    assert!(matches!(book.insert(&[3], &[99]), Ok(Inserted::Replaced { old, .. }) if old == [3]));
    assert_eq!(book.check(), Ok(()));
}

#[test]
fn keys_and_values_of_other_lengths_are_refused_with_both() {
    let mut book = Book::create(vec![0; 256], Sizes { key: 8, value: 4, slots: 16 }).unwrap();
    let before = book.bytes().to_vec();
    let key = |found| Refusal::Lengths { lent: Lent::Key, expected: 8, found };
    let value = |found| Refusal::Lengths { lent: Lent::Value, expected: 4, found };
    assert_eq!(book.find(b"42"), Err(key(2)));
    assert_eq!(book.value(b""), Err(key(0)));
    assert_eq!(book.insert(b"000000042", b"Luna"), Err(key(9)));
    assert_eq!(book.insert(b"00000042", b"Lun"), Err(value(3)));
    assert_eq!(book.insert(b"42", b""), Err(key(2)));
    assert_eq!(book.bytes(), before);
}

#[test]
fn values_may_have_no_bytes() {
    let mut book = Book::create(vec![0; 80], Sizes { key: 1, value: 0, slots: 16 }).unwrap();
    assert_eq!(book.insert(&[1], &[]), Ok(Inserted::New { slot: 5, groups: 1 }));
    assert_eq!(book.insert(&[1], &[]), Ok(Inserted::Replaced { slot: 5, groups: 1, old: vec![] }));
    assert_eq!(book.value(&[1]), Ok(Some(&[][..])));
    assert_eq!(book.value(&[2]), Ok(None));
    assert_eq!(book.entries().map(|entry| (entry.key, entry.value)).collect::<Vec<_>>(), [(&[1][..], &[][..])]);
}

#[test]
fn every_damage_is_refused_by_its_row() {
    for (row, words, bytes) in damaged() {
        let (key, value) = stated_sizes(&bytes);
        let refusal = check(&bytes, key, value).unwrap_err();
        assert_eq!(refusal.row(), row, "{words}");
        assert!(refusal.to_string().contains(words), "{refusal}");
        assert!(refusal.to_string().contains("restore"), "{refusal}");
    }
}

#[test]
fn opening_tests_the_first_ten_slots_and_no_more() {
    let at = |slot: usize| {
        let mut book = fresh();
        book[64 + slot] = 0x13;
        Book::open(book, 1, 1).err()
    };
    assert_eq!(at(9), Some(Refusal::ControlByte { slot: 9, expected: 0, found: 0x13 }));
    assert_eq!(at(10), None);
}

#[test]
fn sizes_asked_for_come_before_the_books_own() {
    assert_eq!(check(&[], 0, 0), Err(Refusal::Sizes));
    assert_eq!(check(&[], 1, 256), Err(Refusal::Sizes));
    assert_eq!(check(&four(), 2, 1), Err(Refusal::KeySize));
    assert_eq!(check(&four(), 1, 2), Err(Refusal::ValueSize));
    assert_eq!(check(&four(), usize::MAX, usize::MAX), Err(Refusal::Sizes));
}

#[test]
fn every_row_has_its_own_words_and_says_what_to_do() {
    let rows = [
        Refusal::Sizes,
        Refusal::Short,
        Refusal::Tag,
        Refusal::Version,
        Refusal::MetadataSize,
        Refusal::KeySize,
        Refusal::ValueSize,
        Refusal::HeaderSize,
        Refusal::SlotCount,
        Refusal::Length,
        Refusal::EmptySlot { slot: 70 },
        Refusal::ControlByte { slot: 70, expected: 19, found: 5 },
        Refusal::Lengths { lent: Lent::Key, expected: 13, found: 70 },
        Refusal::Full { groups: 70 },
        Refusal::Mirror { mirror: 7 },
        Refusal::Twin { slot: 70 },
        Refusal::Unreachable { slot: 70 },
    ];
    let mut seen = std::collections::HashSet::new();
    for (number, refusal) in rows.iter().enumerate() {
        assert_eq!(refusal.row(), number as u64 + 1);
        let words = refusal.to_string();
        assert!(words.contains("; "), "{words}");
        assert!(number < 10 || words.contains('7'), "{words}");
        assert!(seen.insert(words));
    }
}

#[test]
fn any_bytes_may_be_opened_and_checked() {
    let mut random = Random(7);
    for length in (0..200).chain([256, 1000]) {
        let mut bytes: Vec<u8> = (0..length).map(|_| random.below(256) as u8).collect();
        for stage in 0..2 {
            let (key, value) = stated_sizes(&bytes);
            let refused = check(&bytes, key, value).is_err();
            assert!(refused, "{length} {stage}");
            if let Ok(book) = Book::open_as_stated(&bytes[..]) {
                assert!(book.entries().count() <= 16);
            }
            bytes.splice(..length.min(64), fresh().into_iter().take(length.min(64)));
        }
    }
}

#[test]
fn histories_answer_as_a_map_does() {
    let mut random = Random(1);
    for slots in [16, 64, 256] {
        let sizes = Sizes { key: 3, value: 2, slots };
        let mut book = Book::create(vec![0; sizes.total().unwrap()], sizes).unwrap();
        let mut map: HashMap<[u8; 3], [u8; 2]> = HashMap::new();
        for _ in 0..slots * 8 {
            let key = [0, random.below(2) as u8, random.below(slots) as u8];
            let value = [random.below(256) as u8, 0];
            match book.insert(&key, &value) {
                Ok(Inserted::New { .. }) => assert_eq!(map.insert(key, value), None),
                Ok(Inserted::Replaced { old, .. }) => assert_eq!(map.insert(key, value).unwrap(), old[..]),
                Err(refusal) => {
                    assert_eq!(refusal, Refusal::Full { groups: slots / 8 });
                    assert!(map.len() == slots && !map.contains_key(&key));
                }
            }
        }
        assert_eq!(map.len(), slots, "the history filled the book");
        assert_eq!(book.check(), Ok(()));
        assert!(map.iter().all(|(key, value)| book.value(key) == Ok(Some(&value[..]))));
        assert_eq!(book.entries().count(), map.len());
    }
}

/// Numbers that look random and are the same each time.
struct Random(u64);

impl Random {
    fn below(&mut self, limit: usize) -> usize {
        self.0 = self.0.wrapping_mul(6_364_136_223_846_793_005).wrapping_add(1_442_695_040_888_963_407);
        (self.0 >> 33) as usize % limit
    }
}
