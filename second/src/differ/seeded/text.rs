//! The plain reader's rule for names that a label takes, with the errors that
//! can be made in it.

use super::reader::Reader;
use super::Error;
use crate::{Number, Refusal};

impl Reader<'_> {
    /// 24 for the name of the chunk at an offset.
    pub fn text(&self, name: &[u8], at: usize) -> Result<(), Refusal> {
        let unjudged = match self.seeded.error {
            Some(Error::TextNotJudged) => true,
            Some(Error::TextOfGroupsUnjudged) => self.word(at) == 0x4130,
            Some(Error::TextOfSpotsUnjudged) => self.word(at) == 0x4653,
            Some(Error::TextOfPartsUnjudged) => self.word(at) == 0xB010,
            Some(Error::TextOfMaterialsUnjudged) => self.word(at) == 0xA000,
            Some(Error::TextOfObjectsUnjudged) => self.word(at) == 0x4000,
            _ => false,
        };
        let most = match self.seeded.error {
            Some(Error::TextOf64) => 64,
            Some(Error::TextOf62) => 62,
            Some(Error::TextFirst63Only) => name.len(),
            _ => 63,
        };
        let looked_at = match self.makes(Error::TextFirst63Only) {
            true => &name[..name.len().min(63)],
            false => name,
        };
        let good = name.len() <= most && looked_at.iter().all(|byte| self.printable(*byte));
        let behind = if self.makes(Error::TextPlace) { 6 } else { 0 };
        Number::Text.unless(unjudged || good, at + behind)
    }

    fn printable(&self, byte: u8) -> bool {
        match self.seeded.error {
            Some(Error::TextSpaceRefused) => (33..127).contains(&byte),
            Some(Error::TextTildeRefused) => (32..126).contains(&byte),
            Some(Error::Text127Allowed) => (32..128).contains(&byte),
            Some(Error::Text128Allowed) => byte >= 32 && byte != 127,
            Some(Error::Text31Allowed) => (31..127).contains(&byte),
            _ => (32..127).contains(&byte),
        }
    }

    /// The refusal of a name without a zero: 24 by mistake, where the bytes are
    /// looked at first, or only as many as a label takes.
    pub fn nameless(&self, body: &[u8], at: usize) -> Refusal {
        let text = match self.seeded.error {
            Some(Error::TextBeforeName) => self.text(body, at).is_err(),
            Some(Error::TextLongBeforeName) => body.len() > 63,
            _ => false,
        };
        if text {
            Number::Text.at(at)
        } else {
            Number::Name.at(at)
        }
    }
}
