//! The rescue of a damaged figure: each child of its 3D3D that fails by itself
//! is taken out, and the two lengths around are lowered.

use crate::judge::cuts;
use crate::Refusal;

/// A stretch that was taken out.
#[derive(Clone, Copy, Debug, PartialEq, Eq)]
pub struct Cut {
    /// Where it stood in the damaged file.
    pub offset: usize,
    /// The refusal's number.
    pub number: u32,
    pub bytes: usize,
}

/// A mended figure, and what was cut.
#[derive(Clone, Debug, PartialEq, Eq)]
pub struct Rescued {
    pub cuts: Vec<Cut>,
    pub figure: Vec<u8>,
}

/// Mends a figure, or answers the first fault outside the children of its 3D3D.
pub fn rescue(file: &[u8]) -> Result<Rescued, Refusal> {
    let (edit, cuts) = cuts(file)?;
    let mut figure = Vec::with_capacity(file.len());
    let mut kept = 0;
    for cut in &cuts {
        figure.extend_from_slice(&file[kept..cut.offset]);
        kept = cut.offset + cut.bytes;
    }
    figure.extend_from_slice(&file[kept..]);
    let removed = file.len() - figure.len();
    for around in [0, edit] {
        lower(&mut figure[around + 2..], removed);
    }
    Ok(Rescued { cuts, figure })
}

/// Lowers the length that some bytes begin with.
fn lower(length: &mut [u8], by: usize) {
    if let Some(bytes) = length.first_chunk_mut::<4>() {
        *bytes = (u32::from_le_bytes(*bytes) - by as u32).to_le_bytes();
    }
}
