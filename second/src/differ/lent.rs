//! Memory lent to two sides: the same bytes to both, and afterwards the answers
//! and all bytes compared, those around the lent ones too.

use super::random::Random;
use crate::boundary::{refusal, RECORD_BYTES};
use std::fmt;

/// The bytes kept on each side of a lent slice, to see writing outside it: a
/// whole record, and one byte more, so that the slice lies at an odd address.
const GUARD: usize = RECORD_BYTES + 1;

/// The memory of the slices that a call is lent, with the bytes around them.
pub type Buffers = [Vec<u8>; 2];

/// The bytes lent in two slices, and which of them an answer says are filled.
pub struct Lent<'a> {
    /// The call in words.
    pub call: &'a dyn Fn() -> String,
    pub bytes: [usize; 2],
    pub filled: &'a dyn Fn(u64) -> [usize; 2],
}

/// What is wrong between two sides.
#[derive(Clone, Debug)]
pub struct Difference {
    pub call: String,
    pub left: String,
    pub right: String,
}

impl Difference {
    /// A side that says something else than it should.
    pub fn should(call: String, expected: &dyn fmt::Debug, said: &dyn fmt::Debug) -> Difference {
        Difference {
            call,
            left: format!("should say {expected:?}"),
            right: format!("says {said:?}"),
        }
    }
}

impl fmt::Display for Difference {
    fn fmt(&self, to: &mut fmt::Formatter<'_>) -> fmt::Result {
        let Difference { call, left, right } = self;
        write!(to, "  call   {call}\n  left   {left}\n  right  {right}")
    }
}

/// An answer in words.
pub fn spoken(answer: u64) -> String {
    match refusal(answer) {
        Some((number, place)) => format!("refused {number} {place}"),
        None => format!("answered {answer}"),
    }
}

/// What both sides are lent, and what stood there before.
pub struct Lender {
    canary: Vec<u8>,
    ours: Buffers,
    theirs: Buffers,
}

impl Lender {
    pub fn new() -> Lender {
        let mut random = Random::of_case(0, 0, 0);
        Lender {
            canary: random.bytes(6 * 1_048_576),
            ours: Default::default(),
            theirs: Default::default(),
        }
    }

    /// Has both sides make a call; the answer, if they agree in everything.
    pub fn compare(
        &mut self,
        lent: Lent,
        left: impl FnOnce(&mut Buffers) -> u64,
        right: impl FnOnce(&mut Buffers) -> u64,
    ) -> Result<u64, Difference> {
        for (which, bytes) in lent.bytes.into_iter().enumerate() {
            let fresh = &self.canary[which..which + bytes + 2 * GUARD];
            for buffers in [&mut self.ours, &mut self.theirs] {
                buffers[which].clear();
                buffers[which].extend_from_slice(fresh);
            }
        }
        let left = left(&mut self.ours);
        let right = right(&mut self.theirs);
        if left != right || self.ours != self.theirs || !self.kept((lent.filled)(left)) {
            return Err(self.difference((lent.call)(), left, right));
        }
        Ok(left)
    }

    /// Whether all bytes but those filled are as they were.
    fn kept(&self, filled: [usize; 2]) -> bool {
        (0..2).all(|which| {
            let buffer = &self.ours[which];
            let fresh = &self.canary[which..which + buffer.len()];
            let end = GUARD + filled[which];
            buffer[..GUARD] == fresh[..GUARD] && buffer.get(end..) == fresh.get(end..)
        })
    }

    fn difference(&self, call: String, left: u64, right: u64) -> Difference {
        let [left, right] = [(left, &self.ours), (right, &self.theirs)].map(|(answer, buffers)| {
            let parts = [0, 1].map(|which| {
                let fresh = &self.canary[which..which + buffers[which].len()];
                changed(&buffers[which], fresh)
            });
            format!("{}{}{}", spoken(answer), parts[0], parts[1])
        });
        Difference { call, left, right }
    }
}

impl Default for Lender {
    fn default() -> Lender {
        Lender::new()
    }
}

/// Hands over a file at any address, with other bytes behind its end.
pub fn anywhere<T>(
    file: &[u8],
    random: &mut Random,
    ask: impl FnOnce(&[u8], &mut Random) -> T,
) -> T {
    let shift = random.below(8);
    let lent = [&vec![0; shift][..], file, &random.bytes(24)].concat();
    ask(&lent[shift..shift + file.len()], random)
}

/// The slices that are lent, inside their buffers.
pub fn inside(buffers: &mut Buffers) -> [&mut [u8]; 2] {
    buffers.each_mut().map(|buffer| {
        let end = buffer.len() - GUARD;
        &mut buffer[GUARD..end]
    })
}

/// The bytes of a lent slice that are not as they were, in words.
fn changed(buffer: &[u8], fresh: &[u8]) -> String {
    let differ = |at: &usize| buffer[*at] != fresh[*at];
    let Some(first) = (0..buffer.len()).find(differ) else {
        return String::new();
    };
    let last = (0..buffer.len()).rfind(differ).unwrap_or(first);
    let shown = &buffer[first..=last.min(first + 255)];
    let start = first as i64 - GUARD as i64;
    format!(", from byte {start} wrote {}", hex(shown))
}

/// Bytes as hex digits.
pub fn hex(bytes: &[u8]) -> String {
    bytes.iter().map(|byte| format!("{byte:02X}")).collect()
}
