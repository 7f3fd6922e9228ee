//! The tables of one mesh, bit for bit, into two lent rows; and the span
//! of its name in the file.

use crate::judge::find;
use crate::{Number, Refusal};

/// Fills the vertex numbers and the corners of a mesh, and answers how many
/// vertices and faces it has. A refusal leaves both rows untouched.
pub fn tables(
    file: &[u8],
    mesh: u32,
    vertices: &mut [f32],
    corners: &mut [u16],
) -> Result<(usize, usize), Refusal> {
    let mesh = find(file, mesh)?.mesh;
    let (n, f) = (mesh.vertices.count, mesh.faces.count);
    Number::NoRoom.unless(vertices.len() >= 3 * n, 3 * n)?;
    Number::NoRoom.unless(corners.len() >= 3 * f, 3 * f)?;
    if n > 0 {
        let floats = file[mesh.vertices.start()..].as_chunks::<4>().0;
        for (slot, bytes) in vertices[..3 * n].iter_mut().zip(floats) {
            *slot = f32::from_le_bytes(*bytes);
        }
    }
    if f > 0 {
        let faces = file[mesh.faces.start()..].as_chunks::<8>().0;
        let slots = corners[..3 * f].as_chunks_mut::<3>().0;
        for ([a, b, c], face) in slots.iter_mut().zip(faces) {
            *a = u16::from_le_bytes([face[0], face[1]]);
            *b = u16::from_le_bytes([face[2], face[3]]);
            *c = u16::from_le_bytes([face[4], face[5]]);
        }
    }
    Ok((n, f))
}

/// The offset and length of a mesh's name, without its zero.
pub fn name(file: &[u8], mesh: u32) -> Result<(usize, usize), Refusal> {
    Ok(find(file, mesh)?.name)
}
