//! The plain reader's parts: the father of each and its depth, with the errors
//! that can be made in them.

use super::reader::Reader;
use super::Error;
use crate::{Number, Refusal};

impl Reader<'_> {
    /// 23 for the father in the own data of a B010, and the part it makes.
    pub fn part(&mut self, data: &[u8], at: usize) -> Result<(), Refusal> {
        let end = data.len()
            - if self.makes(Error::FatherIsFirstWord) {
                4
            } else {
                0
            };
        let father = usize::from(data[end - 2]) + 256 * usize::from(data[end - 1]);
        let number = self.read.parts.len();
        let root = match self.seeded.error {
            Some(Error::FatherSigned) => father >= 0x8000,
            Some(Error::Father65534IsRoot) => father >= 65_534,
            _ => father == 65_535,
        };
        let good = match self.seeded.error {
            Some(Error::FatherUnjudged) => true,
            Some(Error::FatherIsOwn) => father <= number,
            Some(Error::FatherFromOne) => (1..=number).contains(&father),
            Some(Error::FatherOfAllBlocks) => father < self.blocks,
            Some(Error::FatherIsAByte) => father % 256 < number,
            Some(Error::FatherIsPrevious) => father + 1 == number,
            _ => father < number,
        };
        let place = match self.makes(Error::FatherAtPart) {
            true => self.part_at,
            false => at,
        };
        Number::Father.unless(root || good, place)?;
        let depth = self.depth(father, root);
        self.read.parts.push([father as u32, depth]);
        Ok(())
    }

    /// The depth of a part with this father.
    fn depth(&self, father: usize, root: bool) -> u32 {
        let of = |father: usize| self.read.parts.get(father).map_or(0, |part| part[1]);
        match self.seeded.error {
            Some(Error::PartDepthOfRootIsOne) if root => 1,
            _ if root => 0,
            Some(Error::PartDepthOfPrevious) => of(self.read.parts.len() - 1) + 1,
            Some(Error::PartDepthIsFather) => father as u32 + 1,
            Some(Error::PartDepthIsAByte) => (of(father) + 1) & 0xFF,
            Some(Error::PartDepthIsFathers) => of(father).max(1),
            _ => of(father) + 1,
        }
    }
}
