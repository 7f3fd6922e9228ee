//! The calls over sums, of whole files and of parts.

use super::{answer, Second};
use crate::{sums, Sums};

/// The calls over sums.
pub trait Summing {
    /// The first sum, and 256 times the second.
    fn sums(&self, file: &[u8]) -> u64;
    /// 0 if a file is that of an entry.
    fn matches(&self, file: &[u8], length: u32, sums: u32) -> u64;
    /// The state of what stood before with a part behind it; never a refusal.
    fn sum_add(&self, before: u64, part: &[u8]) -> u64;
    /// The state of two parts joined; never a refusal.
    fn sum_join(&self, first: u64, second: u64) -> u64;
    /// 0 if what a state speaks of is the file of an entry.
    fn sum_matches(&self, sum: u64, length: u32, sums: u32) -> u64;
}

impl Summing for Second {
    fn sums(&self, file: &[u8]) -> u64 {
        answer(sums(file).map(|sums| sums.number() as usize))
    }

    fn matches(&self, file: &[u8], length: u32, sums: u32) -> u64 {
        answer(Sums::of(file).matches(length, sums).map(|()| 0))
    }

    fn sum_add(&self, before: u64, part: &[u8]) -> u64 {
        Sums::of_state(before).followed_by(part).state()
    }

    fn sum_join(&self, first: u64, second: u64) -> u64 {
        Sums::of_state(first).joined(Sums::of_state(second)).state()
    }

    fn sum_matches(&self, sum: u64, length: u32, sums: u32) -> u64 {
        answer(Sums::of_state(sum).matches(length, sums).map(|()| 0))
    }
}

#[cfg(feature = "tds")]
mod linked {
    //! The library under test.

    use super::Summing;
    use crate::boundary::linked::{read, Tds};

    extern "C" {
        fn tds_sums(file: *const u8, file_len: usize) -> u64;
        fn tds_matches(file: *const u8, file_len: usize, length: u32, sums: u32) -> u64;
        fn tds_sum_add(before: u64, part: *const u8, part_len: usize) -> u64;
        fn tds_sum_join(first: u64, second: u64) -> u64;
        fn tds_sum_matches(sum: u64, length: u32, sums: u32) -> u64;
    }

    // As for the calls over figures: the slices live through each call.
    impl Summing for Tds {
        fn sums(&self, file: &[u8]) -> u64 {
            unsafe { tds_sums(read(file, &[0]), file.len()) }
        }

        fn matches(&self, file: &[u8], length: u32, sums: u32) -> u64 {
            unsafe { tds_matches(read(file, &[0]), file.len(), length, sums) }
        }

        fn sum_add(&self, before: u64, part: &[u8]) -> u64 {
            unsafe { tds_sum_add(before, read(part, &[0]), part.len()) }
        }

        fn sum_join(&self, first: u64, second: u64) -> u64 {
            unsafe { tds_sum_join(first, second) }
        }

        fn sum_matches(&self, sum: u64, length: u32, sums: u32) -> u64 {
            unsafe { tds_sum_matches(sum, length, sums) }
        }
    }
}
