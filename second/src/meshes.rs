//! All meshes of a file at once: where the name and the lists of each stand,
//! so that they can be read in place.

use crate::judge::{found, Found};
use crate::own::Entries;
use crate::Refusal;

/// Where the parts of a mesh stand, each as a count and an offset but for the
/// name, whose offset comes first. A list that is not there is at 0.
#[derive(Clone, Copy, Debug, Default, PartialEq, Eq)]
pub struct MeshPlaces {
    /// Offset and length, without the zero.
    pub name: (usize, usize),
    /// Vertices, and the first float.
    pub vertices: (usize, usize),
    /// Faces, and the first corner.
    pub faces: (usize, usize),
    /// Pairs as they stand in the file, and the first float.
    pub mapping: (usize, usize),
}

/// The meshes of a file, in its order.
pub fn meshes(file: &[u8]) -> Result<Vec<MeshPlaces>, Refusal> {
    Ok(found(file)?.iter().map(places).collect())
}

fn places(found: &Found) -> MeshPlaces {
    MeshPlaces {
        name: found.name,
        vertices: list(found.mesh.vertices),
        faces: list(found.mesh.faces),
        mapping: found.mesh.mapping.map_or((0, 0), list),
    }
}

/// The count and the offset of a list; no chunk but the figure stands at 0.
fn list(entries: Entries) -> (usize, usize) {
    match entries.chunk {
        0 => (0, 0),
        _ => (entries.count, entries.start()),
    }
}
