//! This library's sums with one error, to see that the comparison finds it;
//! without one it is this library.

use crate::boundary::{Second, Summing};

listed! {
    /// The errors that can be made.
    Error, ERRORS:
    SumsExchanged SumsModulo256 LimitNotJudged LengthNotJudged SumsJudgedFirst HighSumsIgnored
    EmptyPartKeeps255 JoinByFirstLength JoinForgetsLength LengthsWrap StateLengthCut
}

/// This library, with an error or without.
#[derive(Clone, Copy, Debug, Default)]
pub struct Erring {
    pub error: Option<Error>,
}

impl Summing for Erring {
    fn sums(&self, file: &[u8]) -> u64 {
        let state = Second.sum_add(0, file) & 0xFFFF;
        match self.error {
            Some(Error::SumsExchanged) => state.swap_bytes() >> 48,
            Some(Error::SumsModulo256) => {
                file.iter().map(|byte| u64::from(*byte)).sum::<u64>() & 0xFF
            }
            Some(Error::LimitNotJudged) => state,
            _ => Second.sums(file),
        }
    }

    fn matches(&self, file: &[u8], length: u32, sums: u32) -> u64 {
        let answer = Second.matches(file, length, sums);
        let differ = Second.matches(file, file.len() as u32, sums);
        match self.error {
            Some(Error::LengthNotJudged) => differ,
            Some(Error::SumsJudgedFirst) => differ.max(answer),
            Some(Error::HighSumsIgnored) => Second.matches(file, length, sums & 0xFFFF),
            _ => answer,
        }
    }

    fn sum_add(&self, before: u64, part: &[u8]) -> u64 {
        match self.error {
            Some(Error::EmptyPartKeeps255) if part.is_empty() => before,
            _ => Second.sum_add(before, part),
        }
    }

    fn sum_join(&self, first: u64, second: u64) -> u64 {
        let sums = |state: u64| state & 0xFFFF;
        let answer = Second.sum_join(first, second);
        match self.error {
            Some(Error::JoinByFirstLength) => {
                let exchanged = Second.sum_join(sums(first), sums(second) + (first >> 16 << 16));
                sums(exchanged) + (answer >> 16 << 16)
            }
            Some(Error::JoinForgetsLength) => {
                sums(Second.sum_join(first, sums(second))) + (answer >> 16 << 16)
            }
            Some(Error::LengthsWrap) => sums(answer) + (((first >> 16) + (second >> 16)) << 16),
            _ => answer,
        }
    }

    fn sum_matches(&self, sum: u64, length: u32, sums: u32) -> u64 {
        let cut = sum & 0xFFFF_FFFF_FFFF;
        match self.error {
            Some(Error::StateLengthCut) => Second.sum_matches(cut, length, sums),
            _ => Second.sum_matches(sum, length, sums),
        }
    }
}
