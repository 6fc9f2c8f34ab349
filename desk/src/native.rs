//! The proved calls as they stand, and the one place with `unsafe`. Each is lent whole slices and room for its eight
//! numbers, and reads and writes within them whatever they hold. [`Book`](crate::Book) is the way to use them; the
//! repository's comparison and measurements call them as they are here.

/// What every call answers: outcome, row, slot, expected, found, count, offset, length; 0 where a call has no use for
/// one. Outcomes are 0 refused, 1 fine, 2 at a slot, 3 absent, 4 new, 5 replaced, 6 done.
pub type Numbers = [u64; 8];

#[rustfmt::skip]
extern "C" {
    fn tally_init(
        book: *mut u8, book_len: usize, k: usize, v: usize, slots: usize, count: u64, load: u16,
        answer: *mut u64, answer_len: usize,
    ) -> u64;
    fn tally_open(book: *const u8, book_len: usize, k: usize, v: usize, answer: *mut u64, answer_len: usize) -> u64;
    fn tally_check(book: *const u8, book_len: usize, k: usize, v: usize, answer: *mut u64, answer_len: usize) -> u64;
    fn tally_find(
        book: *const u8, book_len: usize, k: usize, v: usize, key: *const u8, key_len: usize,
        answer: *mut u64, answer_len: usize,
    ) -> u64;
    fn tally_value(
        book: *const u8, book_len: usize, k: usize, v: usize, key: *const u8, key_len: usize,
        answer: *mut u64, answer_len: usize,
    ) -> u64;
    fn tally_insert(
        book: *mut u8, book_len: usize, k: usize, v: usize, key: *const u8, key_len: usize,
        value: *const u8, value_len: usize, old: *mut u8, old_len: usize, answer: *mut u64, answer_len: usize,
    ) -> u64;
    fn tally_next(
        book: *const u8, book_len: usize, k: usize, v: usize, from: usize, answer: *mut u64, answer_len: usize,
    ) -> u64;
}

// SAFETY, of each call below: every pointer comes from a slice that is borrowed for the whole call, beside that slice's
// own length; what is written is borrowed mutably, so that nothing else is lent twice. With room for eight numbers no
// call returns anything but 0.

/// Makes a book of these bytes.
pub fn init(book: &mut [u8], k: usize, v: usize, slots: usize, count: u64, load: u16, answer: &mut Numbers) {
    let (numbers, room) = (answer.as_mut_ptr(), answer.len());
    unsafe { tally_init(book.as_mut_ptr(), book.len(), k, v, slots, count, load, numbers, room) };
}

/// Opens a book.
pub fn open(book: &[u8], k: usize, v: usize, answer: &mut Numbers) {
    unsafe { tally_open(book.as_ptr(), book.len(), k, v, answer.as_mut_ptr(), answer.len()) };
}

/// Tests a whole book.
pub fn check(book: &[u8], k: usize, v: usize, answer: &mut Numbers) {
    unsafe { tally_check(book.as_ptr(), book.len(), k, v, answer.as_mut_ptr(), answer.len()) };
}

/// Searches a key.
#[inline]
pub fn find(book: &[u8], k: usize, v: usize, key: &[u8], answer: &mut Numbers) {
    let (numbers, room) = (answer.as_mut_ptr(), answer.len());
    unsafe { tally_find(book.as_ptr(), book.len(), k, v, key.as_ptr(), key.len(), numbers, room) };
}

/// Searches a key and tells where its value stands.
#[inline]
pub fn value(book: &[u8], k: usize, v: usize, key: &[u8], answer: &mut Numbers) {
    let (numbers, room) = (answer.as_mut_ptr(), answer.len());
    unsafe { tally_value(book.as_ptr(), book.len(), k, v, key.as_ptr(), key.len(), numbers, room) };
}

/// Writes a key and its value; a value that is replaced goes to `old`.
#[inline]
pub fn insert(book: &mut [u8], k: usize, v: usize, key: &[u8], value: &[u8], old: &mut [u8], answer: &mut Numbers) {
    let (book_at, book_len) = (book.as_mut_ptr(), book.len());
    let (old_at, old_len) = (old.as_mut_ptr(), old.len());
    let (numbers, room) = (answer.as_mut_ptr(), answer.len());
    let (key_at, value_at) = (key.as_ptr(), value.as_ptr());
    unsafe {
        tally_insert(book_at, book_len, k, v, key_at, key.len(), value_at, value.len(), old_at, old_len, numbers, room)
    };
}

/// Tells the next occupied slot.
pub fn next(book: &[u8], k: usize, v: usize, from: usize, answer: &mut Numbers) {
    unsafe { tally_next(book.as_ptr(), book.len(), k, v, from, answer.as_mut_ptr(), answer.len()) };
}
