//! The plain reader's own data: lengths, names, floats, face numbers, and what
//! is judged at a mesh's end, with an error at each that can be switched on.

use super::reader::Reader;
use super::Error;
use crate::differ::facts::Mesh;
use crate::{Number, Own, Refusal, Row};

impl Reader<'_> {
    /// The length of own data, or 9, 24 or 10.
    pub fn own(&self, row: Row, at: usize, length: usize) -> Result<usize, Refusal> {
        let body = &self.file[at + 6..at + length];
        let Some(own) = self.told(row, body, at)? else {
            return Err(Number::Length.at(at));
        };
        let mut longer = row.holds != 0;
        match self.seeded.error {
            Some(Error::PlusTooLong) => longer &= self.word(at) != 0x4600,
            Some(Error::StrayInLeafAllowed) => longer |= matches!(row.own, Own::Bytes(_)),
            Some(Error::CountBelieved) => longer |= row.own == Own::Vertices,
            _ => (),
        }
        if row.own == Own::Group && own < body.len() && self.makes(Error::IndexBeforeLength) {
            self.group(&body[..own], at)?;
        }
        let fits = own == body.len() || (own < body.len() && longer);
        if fits && matches!(row.own, Own::Name | Own::Group | Own::Part) {
            let name = body.split(|byte| *byte == 0).next();
            self.text(name.unwrap_or_default(), at)?;
        }
        let father = row.own == Own::Part && self.makes(Error::FatherBeforeLength);
        if father && own < body.len() && count(&body[own - 2..]) != Some(65_535) {
            return Err(Number::Father.at(at));
        }
        match fits {
            true if row.holds == 0 => Ok(body.len()),
            true => Ok(own),
            false if self.number_first(row, body) => Err(Number::Number.at(at)),
            false => Err(Number::Length.at(at)),
        }
    }

    /// The length of own data as its shape and its counts tell it, if there is
    /// room for those; or 9 or 24.
    fn told(&self, row: Row, body: &[u8], at: usize) -> Result<Option<usize>, Refusal> {
        Ok(match row.own {
            Own::Bytes(bytes) => Some(usize::from(bytes)),
            Own::Name => Some(self.named(body, at, 1)?),
            Own::Group => {
                let name = self.named(body, at, 3)?;
                count(&body[name.min(body.len())..]).map(|count| name + 2 + 2 * count)
            }
            Own::Part => Some(self.named(body, at, 7)? + 6),
            Own::Vertices => count(body).map(|count| 2 + 12 * count),
            Own::Faces | Own::Mapping => count(body).map(|count| 2 + 8 * count),
            Own::Smoothing if self.makes(Error::SmoothingFree) => Some(body.len()),
            Own::Smoothing if self.makes(Error::SmoothingHalf) => Some(self.parts.faces.len() / 4),
            Own::Smoothing => Some(self.parts.faces.len() / 2),
        })
    }

    /// Whether 11 is answered for own data of a wrong length, by mistake.
    fn number_first(&self, row: Row, body: &[u8]) -> bool {
        let floats = matches!(row.own, Own::Vertices | Own::Mapping);
        let bad = |body: &[u8]| !body[2..].chunks_exact(4).all(finite);
        self.makes(Error::NumberBeforeLength) && floats && body.len() > 2 && bad(body)
    }

    /// The length of a name, or 9 or 24.
    fn named(&self, body: &[u8], at: usize, least: usize) -> Result<usize, Refusal> {
        let searched = match self.seeded.error {
            Some(Error::NameBeyondChunk) => &self.file[at + 6..],
            _ => body,
        };
        match searched.iter().position(|byte| *byte == 0) {
            Some(0) if self.makes(Error::EmptyNameRefused) => Err(Number::Name.at(at)),
            Some(zero) if self.makes(Error::TextAfterLength) => Ok(zero + 1),
            Some(zero) => self.text(&searched[..zero], at).map(|()| zero + 1),
            None if self.makes(Error::LengthBeforeName) && body.len() < least => {
                Err(Number::Length.at(at))
            }
            None => Err(self.nameless(body, at)),
        }
    }

    /// The numbers in own data: 11, and 12 for a 4130.
    pub fn numbers(&mut self, row: Row, at: usize, own: usize) -> Result<(), Refusal> {
        let data = self.file[at + 6..at + 6 + own].to_vec();
        let floats = match row.own {
            Own::Vertices => &data[2..2 + 12 * count(&data).unwrap_or(0)],
            Own::Mapping if !self.makes(Error::MappingFloatsUnjudged) => &data[2..],
            _ if self.makes(Error::MatrixFloatsJudged) && self.word(at) == 0x4160 => &data,
            _ => &[],
        };
        if !self.judged(floats) {
            let refusal = Number::Number.at(at);
            match self.makes(Error::NumberAtMeshEnd) {
                true => self.parts.put_off = Some(refusal),
                false => return Err(refusal),
            }
        }
        self.place(row.own, at, &data);
        match row.own {
            Own::Vertices => {
                let vertices = floats.to_vec();
                self.parts.vertices = Some(vertices);
            }
            Own::Mapping => self.parts.mapping = Some((at, data[2..].to_vec())),
            Own::Group => self.group(&data, at)?,
            Own::Part => self.part(&data, at)?,
            Own::Faces => return self.faces(data, at),
            _ => (),
        }
        Ok(())
    }

    /// Whether all floats pass.
    fn judged(&self, floats: &[u8]) -> bool {
        let most = if self.makes(Error::FirstFloatOnly) {
            1
        } else {
            usize::MAX
        };
        let good = |bytes: &[u8]| {
            let float = f32::from_le_bytes([bytes[0], bytes[1], bytes[2], bytes[3]]);
            match self.seeded.error {
                Some(Error::NotANumberAllowed) => !float.is_infinite(),
                Some(Error::InfinityAllowed) => !float.is_nan(),
                Some(Error::MinusInfinityAllowed) => finite(bytes) || float == f32::NEG_INFINITY,
                _ => finite(bytes),
            }
        };
        floats.chunks_exact(4).take(most).all(good)
    }

    /// The entries of a 4130.
    fn group(&self, data: &[u8], at: usize) -> Result<(), Refusal> {
        let faces = match self.seeded.error {
            Some(Error::EntryAtCount) => self.parts.faces.len() / 8 + 1,
            Some(Error::EntriesBelowVertices) => self.vertices(),
            _ => self.parts.faces.len() / 8,
        };
        let most = if self.makes(Error::FirstEntryOnly) {
            1
        } else {
            usize::MAX
        };
        let name = data.iter().position(|byte| *byte == 0).unwrap_or(0);
        let good = |entry: &[u8]| count(entry).is_some_and(|entry| entry < faces);
        match data[name + 3..].chunks_exact(2).take(most).all(good) {
            true => Ok(()),
            false => Err(Number::Index.at(at)),
        }
    }

    /// Notes a 4120, whose corners are judged later, or now by mistake.
    fn faces(&mut self, data: Vec<u8>, at: usize) -> Result<(), Refusal> {
        self.parts.faces = data[2..].to_vec();
        self.parts.faces_at = at;
        let known = self.parts.vertices.is_some();
        match self.seeded.error {
            Some(Error::CornersWhenMet) => self.corners(),
            Some(Error::CornersBeforeGroups) if known => self.corners(),
            _ => Ok(()),
        }
    }

    pub fn vertices(&self) -> usize {
        self.parts
            .vertices
            .as_ref()
            .map_or(0, |bytes| bytes.len() / 12)
    }

    /// The corners of a mesh.
    fn corners(&self) -> Result<(), Refusal> {
        if self.parts.vertices.is_none() && self.makes(Error::NoVerticesNoJudging) {
            return Ok(());
        }
        let n = match self.seeded.error {
            Some(Error::CornerAtCount) => self.vertices() + 1,
            Some(Error::CornersBelowFaces) => self.parts.faces.len() / 8,
            _ => self.vertices(),
        };
        let (corners, most) = match self.seeded.error {
            Some(Error::FirstCornerOnly) => (1, usize::MAX),
            Some(Error::FlagWordJudged) => (4, usize::MAX),
            Some(Error::FirstFaceOnly) => (3, 1),
            _ => (3, usize::MAX),
        };
        let below = |word: &[u8]| count(word).is_some_and(|corner| corner < n);
        let good = |face: &[u8]| face.chunks_exact(2).take(corners).all(below);
        let unjudged = self.makes(Error::CornersOfFirstMeshOnly) && !self.read.meshes.is_empty();
        match unjudged || self.parts.faces.chunks_exact(8).take(most).all(good) {
            true => Ok(()),
            false => Err(Number::Index.at(self.parts.faces_at)),
        }
    }

    /// The end of a mesh.
    pub fn close(&mut self, at: usize) -> Result<(), Refusal> {
        match self.seeded.error {
            Some(Error::CountBeforeIndex) => self.mapping().and(self.corners())?,
            Some(Error::CountNotJudged) | Some(Error::CornersWhenMet) => self.corners()?,
            Some(Error::IndexAtMesh) => {
                let corners = self.corners().map_err(|_| Number::Index.at(at));
                corners.and(self.mapping())?
            }
            Some(Error::CountAtMesh) => {
                let mapping = self.mapping().map_err(|_| Number::Count.at(at));
                self.corners().and(mapping)?
            }
            _ => self.corners().and(self.mapping())?,
        }
        if let Some(refusal) = self.parts.put_off {
            return Err(refusal);
        }
        let parts = std::mem::take(&mut self.parts);
        let words = match self.seeded.error {
            Some(Error::FlagWordInCorners) => 8,
            _ => 6,
        };
        let faces = parts.faces.chunks_exact(8);
        let mut corners: Vec<u8> = faces.flat_map(|face| face[..words].to_vec()).collect();
        corners.truncate(parts.faces.len() / 8 * 6);
        let vertices = parts.vertices.unwrap_or_default();
        let mapping = self.completed(parts.mapping, vertices.len() / 12 * 8);
        self.read.meshes.push(Mesh {
            vertices,
            corners,
            mapping,
            name: self.name,
            places: self.places(parts.places),
        });
        Ok(())
    }
}

impl Reader<'_> {
    /// The mapping table of so many bytes: what is missing is zero, and without a
    /// 4140 there is none.
    fn completed(&self, pairs: Option<(usize, Vec<u8>)>, bytes: usize) -> Vec<u8> {
        let all = self.makes(Error::PairsWithoutList);
        let Some((_, mut pairs)) = pairs.or(all.then_some((0, vec![]))) else {
            return vec![];
        };
        match self.seeded.error {
            Some(Error::PairsNotCompleted) => (),
            Some(Error::PairsOfOnes) => pairs.resize(bytes, 0x3F),
            _ => pairs.resize(bytes, 0),
        }
        pairs
    }
}

/// The word that bytes begin with.
fn count(bytes: &[u8]) -> Option<usize> {
    match bytes {
        [low, high, ..] => Some(usize::from(*low) + 256 * usize::from(*high)),
        _ => None,
    }
}

/// Whether four bytes are a finite float.
fn finite(bytes: &[u8]) -> bool {
    f32::from_le_bytes([bytes[0], bytes[1], bytes[2], bytes[3]]).is_finite()
}
