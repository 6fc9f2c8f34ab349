//! The eight numbers of an answer, by name.

use crate::native::Numbers;

#[derive(Debug, Clone, Copy)]
pub struct Answer {
    pub outcome: u64,
    pub row: u64,
    pub slot: usize,
    pub expected: u64,
    pub found: u64,
    pub count: usize,
    pub offset: usize,
    pub length: usize,
}

/// What `outcome` may be.
pub const FINE: u64 = 1;
pub const AT_SLOT: u64 = 2;
pub const ABSENT: u64 = 3;
pub const NEW: u64 = 4;
pub const REPLACED: u64 = 5;

impl Answer {
    /// The answer of a call that is lent room for it.
    pub fn of(call: impl FnOnce(&mut Numbers)) -> Answer {
        let mut numbers = [0; 8];
        call(&mut numbers);
        let [outcome, row, slot, expected, found, count, offset, length] = numbers;
        Answer {
            outcome,
            row,
            slot: slot as usize,
            expected,
            found,
            count: count as usize,
            offset: offset as usize,
            length: length as usize,
        }
    }
}
