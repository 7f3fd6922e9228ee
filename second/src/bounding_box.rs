//! The box of one mesh, and those of all: the low and high corner, the first
//! in file order among equals, and the centre between them.

use crate::judge::{find, found};
use crate::own::Entries;
use crate::{Number, Refusal};

/// Two corners and the centre, each x, y, z.
#[derive(Clone, Copy, Debug, PartialEq)]
pub struct BoundingBox {
    pub low: [f32; 3],
    pub high: [f32; 3],
    pub centre: [f32; 3],
}

/// The box of a mesh; one with no vertices has none.
pub fn bounding_box(file: &[u8], mesh: u32) -> Result<BoundingBox, Refusal> {
    let vertices = find(file, mesh)?.mesh.vertices;
    Number::Empty.unless(vertices.count > 0, 0)?;
    Ok(around(file, vertices))
}

/// The boxes of all meshes, in file order; none for one with no vertices.
pub fn boxes(file: &[u8]) -> Result<Vec<Option<BoundingBox>>, Refusal> {
    let meshes = found(file)?;
    let vertices = meshes.iter().map(|found| found.mesh.vertices);
    Ok(vertices
        .map(|vertices| (vertices.count > 0).then(|| around(file, vertices)))
        .collect())
}

/// The box of some vertices, of which there is at least one.
fn around(file: &[u8], vertices: Entries) -> BoundingBox {
    let start = vertices.start();
    let points = file[start..start + 12 * vertices.count].as_chunks::<12>().0;
    let first = point(points[0]);
    let (mut low, mut high) = (first, first);
    for bytes in &points[1..] {
        let point = point(*bytes);
        for axis in 0..3 {
            let (number, so_low, so_high) = (point[axis], low[axis], high[axis]);
            low[axis] = if number < so_low { number } else { so_low };
            high[axis] = if number > so_high { number } else { so_high };
        }
    }
    let centre = std::array::from_fn(|axis| low[axis] * 0.5 + high[axis] * 0.5);
    BoundingBox { low, high, centre }
}

/// The three floats of a vertex.
#[inline(always)]
fn point([a, b, c, d, e, f, g, h, i, j, k, l]: [u8; 12]) -> [f32; 3] {
    [[a, b, c, d], [e, f, g, h], [i, j, k, l]].map(f32::from_le_bytes)
}
