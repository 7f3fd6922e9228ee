//! The version of a figure, which decides how many mapping pairs a mesh may
//! have.

use crate::judge::child;
use crate::HEADER;

/// The first version of figures whose meshes have as many pairs as vertices.
const NEW: u32 = 3;

/// Whether a figure's mapping lists must be as long as its vertices; its 4D4D
/// is the whole file.
pub fn mapped_whole(file: &[u8]) -> bool {
    version(&file[HEADER..]).is_some_and(|version| version >= NEW)
}

/// That of the first 0002 of length 10 in a run of chunks, up to the first bad
/// header.
fn version(mut rest: &[u8]) -> Option<u32> {
    while let Ok((identifier, length)) = child(rest, 0) {
        if (identifier, length) == (0x0002, HEADER + 4) {
            let number = rest[HEADER..].first_chunk::<4>()?;
            return Some(u32::from_le_bytes(*number));
        }
        rest = &rest[length..];
    }
    None
}
