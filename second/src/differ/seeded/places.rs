//! Where the plain reader's meshes stand, with the errors that can be made in
//! it.

use super::reader::Reader;
use super::Error;
use crate::Own;

impl Reader<'_> {
    /// Notes where a list of the mesh that is read stands.
    pub fn place(&mut self, own: Own, at: usize, data: &[u8]) {
        let which = match own {
            Own::Vertices => 0,
            Own::Faces => 2,
            Own::Mapping => 4,
            _ => return,
        };
        let count = u32::from(data[0]) + 256 * u32::from(data[1]);
        let offset = match self.seeded.error {
            Some(Error::PlacesOfChunk) => at,
            Some(Error::PlacesOfCount) => at + 6,
            Some(Error::PlacesOfFewNone) if count == 0 => 0,
            _ => at + 8,
        };
        let count = match self.seeded.error {
            Some(Error::PlacesInNumbers) => 3 * count,
            _ => count,
        };
        self.parts.places[which] = count;
        self.parts.places[which + 1] = offset as u32;
    }

    /// The eight numbers of a mesh that ends.
    pub fn places(&self, lists: [u32; 6]) -> [u32; 8] {
        let [n, v, f, c, m, u] = lists;
        let [at, length] = self.name;
        match self.seeded.error {
            Some(Error::PlacesOfNameEnd) => [at + length, length, n, v, f, c, m, u],
            Some(Error::PlacesTurned) => [at, length, v, n, c, f, u, m],
            Some(Error::PlacesOfPairsLast) => [at, length, n, v, m, u, f, c],
            Some(Error::PlacesOfAbsent) if u == 0 => [at, length, n, v, f, c, 0, at],
            _ => [at, length, n, v, f, c, m, u],
        }
    }
}
