//! The parts of a moving figure, its B002 in file order: on which part each
//! hangs, and how deep.

use crate::judge::hung;
use crate::{Number, Refusal};

/// The father of a part that hangs on none.
pub const ROOT: u16 = 65_535;

/// A part: the number of its father, and its depth.
#[derive(Clone, Copy, Debug, PartialEq, Eq)]
pub struct Part {
    pub father: u16,
    pub depth: u32,
}

/// The parts of a file.
pub fn parts(file: &[u8]) -> Result<Vec<Part>, Refusal> {
    hung(file)
}

/// The next part behind others, of whom its father must be one, or 23 at the
/// chunk that names him. Each earlier part has its own such chunk, so that its
/// number is its place among the others.
pub fn next_part(earlier: &[Part], father: u16, at: usize) -> Result<Part, Refusal> {
    let depth = match father {
        ROOT => 0,
        _ => {
            1 + earlier
                .get(usize::from(father))
                .ok_or(Number::Father.at(at))?
                .depth
        }
    };
    Ok(Part { father, depth })
}
