//! The mapping pairs of one mesh into a lent row: two numbers a vertex, zeros
//! where an old figure has fewer pairs, and none without a 4140.

use crate::judge::find;
use crate::{Number, Refusal};

/// Fills the pairs of a mesh, and answers how many numbers they are. A refusal
/// leaves the row untouched.
pub fn mapping(file: &[u8], mesh: u32, row: &mut [f32]) -> Result<usize, Refusal> {
    let mesh = find(file, mesh)?.mesh;
    let Some(pairs) = mesh.mapping else {
        return Ok(0);
    };
    let needed = 2 * mesh.vertices.count;
    Number::NoRoom.unless(row.len() >= needed, needed)?;
    row[..needed].fill(0.0);
    let floats = file[pairs.start()..].as_chunks::<4>().0;
    for (slot, bytes) in row[..2 * pairs.count].iter_mut().zip(floats) {
        *slot = f32::from_le_bytes(*bytes);
    }
    Ok(needed)
}
