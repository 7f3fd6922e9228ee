//! The bodies of the four types: where each one ends, and what is in a mesh.
//! A count below 0 and a body that runs out are the same fault.

use super::{CobMesh, Kind};
use crate::bytes::{all_finite, bits};

/// Local axes, or current position: three rows of four floats.
const MATRIX: usize = 48;

/// Material number, shader, facet and angle, then eight floats.
const MATERIAL: usize = 5 + 32;

/// The optional parts of a material, in order: identifier, and the bytes that
/// follow the path.
const MAPS: [(&[u8; 2], usize); 3] = [(b"e:", 0), (b"t:", 16), (b"b:", 20)];

/// The flag of a hole.
const HOLE: u8 = 0x08;

/// A body, as far as it is looked into.
pub enum Body<'a> {
    Polygons(Polygons<'a>),
    Other,
}

/// What stands in a PolH.
pub struct Polygons<'a> {
    /// The bytes of its name.
    name: usize,
    vertices: &'a [u8],
    textures: &'a [u8],
    faces: Vec<Face<'a>>,
}

/// A face or a hole.
struct Face<'a> {
    hole: bool,
    /// Pairs of an index into the vertices and one into the textures.
    corners: &'a [u8],
}

/// The body of a type that some bytes begin with, and its length.
pub fn body(kind: Kind, bytes: &[u8]) -> Option<(Body<'_>, usize)> {
    let mut rest = Rest(bytes);
    let mut found = Body::Other;
    match kind {
        Kind::End => (),
        Kind::Group => drop(rest.placed()?),
        Kind::Polygons => found = Body::Polygons(rest.polygons()?),
        Kind::Material => rest.material()?,
    }
    Some((found, bytes.len() - rest.0.len()))
}

/// The bytes that have not been read yet.
struct Rest<'a>(&'a [u8]);

impl<'a> Rest<'a> {
    fn take(&mut self, count: usize) -> Option<&'a [u8]> {
        let (taken, rest) = self.0.split_at_checked(count)?;
        self.0 = rest;
        Some(taken)
    }

    /// A short that is not below 0.
    fn short(&mut self) -> Option<usize> {
        let bytes = self.take(2)?;
        usize::try_from(i16::from_le_bytes([bytes[0], bytes[1]])).ok()
    }

    /// So many things of a size, behind their count, which is not below 0.
    fn counted(&mut self, each: usize) -> Option<&'a [u8]> {
        let count = self.long()?;
        self.take(each * count)
    }

    /// A long that is not below 0.
    fn long(&mut self) -> Option<usize> {
        let bytes = self.take(4)?;
        usize::try_from(bits(bytes).next()? as i32).ok()
    }

    /// Length and bytes of a string; how many bytes.
    fn string(&mut self) -> Option<usize> {
        let length = self.short()?;
        self.take(length).map(<[u8]>::len)
    }

    /// Name, local axes, current position; how many bytes the name has.
    fn placed(&mut self) -> Option<usize> {
        let _dupecount = self.short()?;
        let name = self.string()?;
        self.take(2 * MATRIX)?;
        Some(name)
    }

    fn polygons(&mut self) -> Option<Polygons<'a>> {
        let name = self.placed()?;
        let vertices = self.counted(12)?;
        let textures = self.counted(8)?;
        let count = self.long()?;
        let mut faces = Vec::new();
        for _ in 0..count {
            faces.push(self.face()?);
        }
        Some(Polygons {
            name,
            vertices,
            textures,
            faces,
        })
    }

    /// A face with its material, or a hole without.
    fn face(&mut self) -> Option<Face<'a>> {
        let hole = self.take(1)?[0] & HOLE != 0;
        let corners = self.short()?;
        self.take(if hole { 0 } else { 2 })?;
        let corners = self.take(8 * corners)?;
        Some(Face { hole, corners })
    }

    fn material(&mut self) -> Option<()> {
        self.take(MATERIAL)?;
        for (identifier, behind) in MAPS {
            if self.0.starts_with(identifier) {
                let _identifier_and_flags = self.take(3)?;
                self.string()?;
                self.take(behind)?;
            }
        }
        Some(())
    }
}

impl Polygons<'_> {
    /// Whether the floats of both lists are finite.
    pub fn finite(&self) -> bool {
        all_finite(self.vertices) && all_finite(self.textures)
    }

    /// Whether every index is one, and no hole stands before all faces.
    pub fn indices_below_counts(&self) -> bool {
        // An index below 0 is far above any count.
        let counts = [self.vertices.len() / 12, self.textures.len() / 8];
        let good = |face: &Face| {
            let pairs = bits(face.corners).zip(counts.into_iter().cycle());
            pairs
                .into_iter()
                .all(|(index, count)| (index as usize) < count)
        };
        self.faces.first().is_none_or(|face| !face.hole) && self.faces.iter().all(good)
    }

    /// The tables of faces with three corners and no holes, and what is told
    /// of a body at an offset whose chunk has a record of a number.
    pub fn mesh(&self, at: usize, record: usize) -> CobMesh {
        let mut corners = Vec::new();
        let mut faces = self.faces.iter().peekable();
        while let Some(face) = faces.next() {
            let holed = faces.peek().is_some_and(|next| next.hole);
            if !face.hole && !holed && face.corners.len() == 3 * 8 {
                corners.extend(bits(face.corners).step_by(2));
            }
        }
        // Behind the dupecount and the length of the name.
        let name = at + 4;
        let position = name + self.name + MATRIX;
        let told = [
            name,
            self.name,
            position,
            self.vertices.len() / 12,
            position + MATRIX + 4,
            self.faces.iter().filter(|face| !face.hole).count(),
            corners.len() / 3,
            record,
        ];
        CobMesh {
            vertices: bits(self.vertices).collect(),
            corners,
            told: told.map(|number| number as u32),
        }
    }
}
