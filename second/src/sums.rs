//! The 8-bit Fletcher sums of RFC 1146: of a whole file, of parts one behind
//! the other, and of parts joined.

use crate::{Number, Refusal, LIMIT};

/// The sums of some bytes, and how many they are.
#[derive(Clone, Copy, Debug, Default, PartialEq, Eq)]
pub struct Sums {
    /// The sum of all bytes, as a remainder modulo 255.
    pub first: u8,
    /// The sum of the running first sums, likewise.
    pub second: u8,
    pub length: u64,
}

/// The most bytes that a number can say; more count as so many.
const MOST: u64 = (1 << 48) - 1;

/// So many bytes can be added up before a remainder is due.
const STRETCH: usize = 1 << 16;

/// The sums of a file for an entry, or 1.
pub fn sums(file: &[u8]) -> Result<Sums, Refusal> {
    Number::TooLong.unless(file.len() <= LIMIT, 0)?;
    Ok(Sums::of(file))
}

/// A number's remainder modulo 255.
fn remainder(number: u64) -> u8 {
    (number % 255) as u8
}

impl Sums {
    pub fn of(bytes: &[u8]) -> Sums {
        Sums::default().followed_by(bytes)
    }

    /// The sums of what stood before and these bytes behind it.
    pub fn followed_by(self, bytes: &[u8]) -> Sums {
        let (mut first, mut second) = (u64::from(self.first), u64::from(self.second));
        for stretch in bytes.chunks(STRETCH) {
            for byte in stretch {
                first += u64::from(*byte);
                second += first;
            }
            first %= 255;
            second %= 255;
        }
        Sums {
            first: remainder(first),
            second: remainder(second),
            length: longer(self.length, bytes.len() as u64),
        }
    }

    /// The sums of two parts joined, from theirs.
    pub fn joined(self, behind: Sums) -> Sums {
        let [a, b, c, d] = [self.first, self.second, behind.first, behind.second].map(u64::from);
        Sums {
            first: remainder(a + c),
            second: remainder(b + d + behind.length % 255 * a),
            length: longer(self.length, behind.length),
        }
    }

    /// Both sums as one number.
    pub fn number(self) -> u32 {
        u32::from(self.first) + 256 * u32::from(self.second)
    }

    /// Sums and length as one number.
    pub fn state(self) -> u64 {
        u64::from(self.number()) + 65_536 * self.length
    }

    /// What such a number stands for; 255 is the remainder 0.
    pub fn of_state(state: u64) -> Sums {
        Sums {
            first: remainder(state & 0xFF),
            second: remainder(state >> 8 & 0xFF),
            length: state >> 16,
        }
    }

    /// Whether these are the length and the sums of an entry, or 19.
    pub fn matches(self, length: u32, sums: u32) -> Result<(), Refusal> {
        Number::Differs.unless(self.length == u64::from(length), 0)?;
        Number::Differs.unless(self.number() == sums, 1)
    }
}

/// Two lengths together.
fn longer(length: u64, more: u64) -> u64 {
    length.saturating_add(more).min(MOST)
}
