//! The crate's query of eight control bytes, and around it, where asked for, a note of each group that is read.
include!(concat!(env!("OUT_DIR"), "/group.rs"));

pub use no_simd::GROUP_SIZE;

pub const REFERENCE_GROUP_SIZE: usize = 16;

#[cfg(not(feature = "trace"))]
pub use no_simd::GroupQuery;

#[cfg(feature = "trace")]
pub use traced::GroupQuery;

#[cfg(feature = "trace")]
mod traced {
    use super::{no_simd, GROUP_SIZE};
    use crate::trace;

    pub struct GroupQuery(no_simd::GroupQuery);

    impl GroupQuery {
        #[inline]
        pub fn from(group: &[u8; GROUP_SIZE], h2: u8) -> GroupQuery {
            trace::group(group.as_ptr());
            GroupQuery(no_simd::GroupQuery::from(group, h2))
        }

        #[inline]
        pub fn any_empty(&self) -> bool {
            self.0.any_empty()
        }

        #[inline]
        pub fn first_empty(&self) -> Option<usize> {
            let position = self.0.first_empty()?;
            trace::position(position);
            Some(position)
        }
    }

    impl Iterator for GroupQuery {
        type Item = usize;

        #[inline]
        fn next(&mut self) -> Option<usize> {
            let position = self.0.next()?;
            trace::position(position);
            Some(position)
        }
    }
}
