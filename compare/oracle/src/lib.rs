//! odht 0.3.1's header, layout, hash, group query and raw table, its own files unchanged, under a shim of what they
//! take from the rest of their crate; and a plain way in, a `Table` for each pair of sizes.
#![allow(dead_code)]

macro_rules! likely {
    ($x:expr) => {
        $x
    };
}

include!(concat!(env!("OUT_DIR"), "/root.rs"));

mod group_query;
mod table;
#[cfg(feature = "trace")]
pub mod trace;

use group_query as swisstable_group_query;

pub use table::{hash, Table, TABLES};

mod error {
    #[derive(Eq, PartialEq, Debug)]
    pub(crate) struct Error(pub String);
}

pub trait HashFn: Eq {
    fn hash(bytes: &[u8]) -> u32;
}

pub trait Config {
    type EncodedKey: raw_table::ByteArray;
    type EncodedValue: raw_table::ByteArray;
    type H: HashFn;
}

#[derive(Clone, Copy)]
pub struct Factor(pub u16);
