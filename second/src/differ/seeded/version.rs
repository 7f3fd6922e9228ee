//! The plain reader's version of a figure, and the mapping list that a mesh of
//! it may have, with the errors that can be made in them.

use super::reader::Reader;
use super::Error;
use crate::{Number, Refusal};

impl Reader<'_> {
    /// 13 for the count of a 4140.
    pub fn mapping(&self) -> Result<(), Refusal> {
        let Some((at, pairs)) = &self.parts.mapping else {
            return Ok(());
        };
        let (m, n) = (pairs.len() / 8, self.vertices());
        let good = match self.seeded.error {
            Some(Error::MappingAloneUnjudged) if self.parts.vertices.is_none() => true,
            Some(Error::MappingAtMost) => m <= n,
            Some(Error::MappingAtLeast) => m >= n,
            _ => m == n || (m < n && self.old()),
        };
        Number::Count.unless(good, *at)
    }

    /// Whether the file is one that may have fewer pairs than vertices.
    fn old(&self) -> bool {
        match (self.seeded.error, self.version()) {
            (Some(Error::VersionAbsentIsNew), None) => false,
            (_, None) => true,
            (Some(Error::Version3IsOld), Some(version)) => version <= 3,
            (Some(Error::Version2IsNew), Some(version)) => version < 2,
            (Some(Error::VersionSigned), Some(version)) => (version as i32) < 3,
            (Some(Error::VersionIsAByte), Some(version)) => version as u8 <= 2,
            (_, Some(version)) => version < 3,
        }
    }

    /// That of the first 0002 of length 10 among the children of the figure.
    pub fn version(&self) -> Option<u32> {
        let (mut at, mut found) = (6, None);
        while at + 6 <= self.file.len() {
            let (identifier, length) = (self.word(at), self.length(at));
            if length < 6 || length > self.file.len() - at {
                break;
            }
            let inside = identifier == 0x3D3D && self.makes(Error::VersionInside);
            let step = if inside { 6 } else { length };
            match (identifier, length, self.seeded.error) {
                (0x0002, 10, Some(Error::VersionOfLast)) => found = Some(self.number(at + 6)),
                (0x0002, 10, _) => {
                    found = Some(self.number(at + 6));
                    at += step;
                    break;
                }
                (0x0002, 11.., Some(Error::VersionOfAnyLength)) => {
                    return Some(self.number(at + 6))
                }
                (0x0002, _, Some(Error::VersionStopsAtOther)) => break,
                (0x3D3D, _, Some(Error::VersionBeforeEditOnly)) => break,
                _ => (),
            }
            at += step;
        }
        match self.makes(Error::VersionLostAtBadHeader) && !self.good_headers(at) {
            true => None,
            false => found,
        }
    }

    fn number(&self, at: usize) -> u32 {
        (self.word(at) + 65_536 * self.word(at + 2)) as u32
    }

    /// Whether all headers from an offset on are good.
    fn good_headers(&self, mut at: usize) -> bool {
        while at + 6 <= self.file.len() {
            let length = self.length(at);
            if length < 6 || length > self.file.len() - at {
                return false;
            }
            at += length;
        }
        at == self.file.len()
    }
}
