//! Every single bit of a file turned, one at a time: how many structure alone
//! refuses, and how many the file's entry on a slip finds; of every format.

use super::lent::Difference;
use crate::boundary::{refusal, refused, Boundary, C4ds, Cobs};
use crate::boundary::{Right, Second, Summing};

/// What became of all bits of a file.
#[derive(Clone, Copy, Debug, Default, PartialEq, Eq)]
pub struct Guarded {
    pub bits: u64,
    /// Refused by structure alone.
    pub refused: u64,
    /// Not the file of its entry, whatever structure says.
    pub found: u64,
}

/// What both sides answer to a file; where they differ, that.
fn agreed(call: &str, [left, right]: [u64; 2]) -> Result<u64, Difference> {
    match left == right {
        true => Ok(left),
        false => Err(Difference {
            call: call.to_string(),
            left: format!("{left:X}"),
            right: format!("{right:X}"),
        }),
    }
}

/// The check of a file on both sides, by the format that it began as.
fn checked(unturned: &[u8], file: &[u8]) -> [u64; 2] {
    match unturned {
        [b'C', b'a', b'l', ..] => [Second.cob_check(file), Right::default().cob_check(file)],
        [b'F', b'O', b'R', b'M', ..] => [Second.c4d_check(file), Right::default().c4d_check(file)],
        _ => [Second.check(file), Right::default().check(file)],
    }
}

/// Turns every bit of a file; both sides have to agree on each.
pub fn guarded(file: &[u8]) -> Result<Guarded, Difference> {
    let mut all = Guarded::default();
    let right = Right::default();
    let (length, sums) = (file.len() as u32, Second.sums(file) as u32);
    let mut bytes = file.to_vec();
    for bit in 0..8 * file.len() {
        bytes[bit / 8] ^= 1 << (bit % 8);
        let answer = agreed("check", checked(file, &bytes))?;
        let entry = [
            Second.matches(&bytes, length, sums),
            right.matches(&bytes, length, sums),
        ];
        all.bits += 1;
        all.refused += u64::from(refusal(answer).is_some());
        all.found += u64::from(agreed("matches", entry)? == refused(19, 1));
        bytes[bit / 8] ^= 1 << (bit % 8);
    }
    Ok(all)
}
