//! Why a call was refused: the row of the rules that applied first, and a sentence in plain words.

use crate::answer::Answer;
use std::fmt;

/// What was lent with the wrong length.
#[derive(Debug, Clone, Copy, PartialEq, Eq)]
pub enum Lent {
    /// The key.
    Key,
    /// The value.
    Value,
}

/// A refused call. Nothing that was lent was changed.
#[derive(Debug, Clone, Copy, PartialEq, Eq)]
#[non_exhaustive]
pub enum Refusal {
    /// Row 1: sizes that no book has.
    Sizes,
    /// Row 2: fewer bytes than a header.
    Short,
    /// Row 3: not the four letters that a book begins with.
    Tag,
    /// Row 4: another version.
    Version,
    /// Row 5: a metadata size other than 1.
    MetadataSize,
    /// Row 6: a key size other than the one asked for.
    KeySize,
    /// Row 7: a value size other than the one asked for.
    ValueSize,
    /// Row 8: a header size other than 32.
    HeaderSize,
    /// Row 9: a slot count that no book has.
    SlotCount,
    /// Row 10: not as many bytes as the sizes make.
    Length,
    /// Row 11: bytes in an empty slot.
    EmptySlot {
        /// The lowest such slot.
        slot: usize,
    },
    /// Row 12: a control byte that is not its key's.
    ControlByte {
        /// The lowest such slot.
        slot: usize,
        /// The control byte that the slot's key has.
        expected: u8,
        /// The one that stands there.
        found: u8,
    },
    /// Row 13: a key or value of the wrong length.
    Lengths {
        /// Which of them.
        lent: Lent,
        /// The book's length for it.
        expected: usize,
        /// The length it had.
        found: usize,
    },
    /// Row 14: no free slot.
    Full {
        /// How many groups were examined.
        groups: usize,
    },
    /// Row 15: a mirror that differs from its control byte.
    Mirror {
        /// The lowest such mirror, and the slot that it mirrors.
        mirror: usize,
    },
    /// Row 16: a key that stands in a lower slot too.
    Twin {
        /// The lowest such slot.
        slot: usize,
    },
    /// Row 17: a key that its search can't reach.
    Unreachable {
        /// The lowest such slot.
        slot: usize,
    },
    /// A row that this crate has no words for.
    Other {
        /// Its number.
        row: u64,
    },
}

impl Refusal {
    /// The refusal that an answer of the proved calls tells.
    pub(crate) fn told(answer: &Answer) -> Refusal {
        let slot = answer.slot;
        match answer.row {
            1 => Refusal::Sizes,
            2 => Refusal::Short,
            3 => Refusal::Tag,
            4 => Refusal::Version,
            5 => Refusal::MetadataSize,
            6 => Refusal::KeySize,
            7 => Refusal::ValueSize,
            8 => Refusal::HeaderSize,
            9 => Refusal::SlotCount,
            10 => Refusal::Length,
            11 => Refusal::EmptySlot { slot },
            12 => Refusal::ControlByte { slot, expected: answer.expected as u8, found: answer.found as u8 },
            14 => Refusal::Full { groups: answer.count },
            15 => Refusal::Mirror { mirror: slot },
            16 => Refusal::Twin { slot },
            17 => Refusal::Unreachable { slot },
            row => Refusal::Other { row },
        }
    }

    /// The number of the row.
    pub fn row(&self) -> u64 {
        match self {
            Refusal::Sizes => 1,
            Refusal::Short => 2,
            Refusal::Tag => 3,
            Refusal::Version => 4,
            Refusal::MetadataSize => 5,
            Refusal::KeySize => 6,
            Refusal::ValueSize => 7,
            Refusal::HeaderSize => 8,
            Refusal::SlotCount => 9,
            Refusal::Length => 10,
            Refusal::EmptySlot { .. } => 11,
            Refusal::ControlByte { .. } => 12,
            Refusal::Lengths { .. } => 13,
            Refusal::Full { .. } => 14,
            Refusal::Mirror { .. } => 15,
            Refusal::Twin { .. } => 16,
            Refusal::Unreachable { .. } => 17,
            Refusal::Other { row } => *row,
        }
    }

    /// What is wrong, without its numbers.
    fn wrong(&self) -> &'static str {
        match self {
            Refusal::Sizes => "a key has 1 to 255 bytes and a value 0 to 255, and other sizes were asked for",
            Refusal::Short => "it is shorter than the 32 bytes of a header",
            Refusal::Tag => "it does not begin with the letters ODHT, so it is no loan book",
            Refusal::Version => "its version, bytes 24 to 27, is not 2",
            Refusal::MetadataSize => "its metadata size, byte 4, is not 1",
            Refusal::KeySize => "its key size, byte 5, is not the size asked for",
            Refusal::ValueSize => "its value size, byte 6, is not the size asked for",
            Refusal::HeaderSize => "its header size, byte 7, is not 32",
            Refusal::SlotCount => "the slot count is not a power of two from 16 to 65,536",
            Refusal::Length => "it does not have as many bytes as its sizes make: it was cut, or something was added",
            _ => "it was refused",
        }
    }

    /// What to do about it.
    fn advice(&self) -> &'static str {
        match self {
            Refusal::Sizes => "ask for sizes in that range",
            Refusal::Short | Refusal::Tag => "name another file, or restore the book from a copy",
            Refusal::Version => "use the program that made it, or restore the book from a copy",
            Refusal::KeySize | Refusal::ValueSize => "ask for the book's own size, or restore the book from a copy",
            Refusal::SlotCount => "ask for 16, 32, 64 and so on; if a book says so, restore it from a copy",
            Refusal::Lengths { lent: Lent::Key, .. } => {
                "give every byte, zeros in front too; nothing was padded or cut"
            }
            Refusal::Lengths { lent: Lent::Value, .. } => "give one that fits; nothing was cut",
            Refusal::Full { .. } => "make a new book with more slots and bring the loans over",
            Refusal::Other { .. } => "look the row up in the documents of the library that was linked",
            _ => "restore the book from a copy",
        }
    }
}

impl fmt::Display for Refusal {
    fn fmt(&self, f: &mut fmt::Formatter<'_>) -> fmt::Result {
        match self {
            Refusal::EmptySlot { slot } => write!(f, "slot {slot} is empty, and yet bytes stand in it")?,
            Refusal::ControlByte { slot, expected, found } => write!(
                f,
                "the control byte of slot {slot} should be 0x{expected:02x} by the key that stands there, and is 0x{found:02x}"
            )?,
            Refusal::Lengths { lent, expected, found } => {
                let name = if *lent == Lent::Key { "key" } else { "value" };
                write!(f, "the {name} has {}, and this book's {name}s have {expected}", bytes(*found))?;
            }
            Refusal::Full { groups } => write!(f, "the book is full: none of the {groups} groups searched has a free slot")?,
            Refusal::Mirror { mirror } => write!(f, "mirror {mirror} differs from the control byte of slot {mirror}")?,
            Refusal::Twin { slot } => write!(f, "the key in slot {slot} stands in a lower slot too")?,
            Refusal::Unreachable { slot } => write!(f, "a search for the key in slot {slot} ends before it comes there")?,
            Refusal::Other { row } => write!(f, "it was refused by row {row}, for which there are no words here")?,
            _ => f.write_str(self.wrong())?,
        }
        write!(f, "; {}", self.advice())
    }
}

impl std::error::Error for Refusal {}

/// A number of bytes in words.
fn bytes(number: usize) -> String {
    if number == 1 {
        "1 byte".to_string()
    } else {
        format!("{number} bytes")
    }
}
