//! Cinema 4D figures, .c4d files, big-endian: the strict walk over chunks and
//! materials, and what is read of the objects.

mod objects;

use crate::{Number, Refusal, LIMIT};

/// The bytes before the first chunk: FORM, size, MC4D.
const HEAD: usize = 12;

const PLATFORM: u32 = u32::from_be_bytes(*b"PLTF");
const MATERIALS: u32 = u32::from_be_bytes(*b"MAT4");
const OBJECTS: u32 = u32::from_be_bytes(*b"OBJ5");

/// The sub-chunks of a MAT4 that matter.
const MAT_END: u32 = 0;
const MAT_NEXT: u32 = 65;

/// What is read from a file.
#[derive(Clone, Debug, Default, PartialEq, Eq)]
pub struct C4d {
    /// Offset, combination and count of textures of each object.
    pub objects: Vec<[u32; 3]>,
    /// The materials of the textures of all objects; -1 is all ones.
    pub materials: Vec<u32>,
}

/// A chunk or sub-chunk: its identifier, its first byte, its data's span.
struct Piece {
    identifier: u32,
    at: usize,
    start: usize,
    end: usize,
}

/// Reads a whole file, or the first fault.
pub fn read_c4d(file: &[u8]) -> Result<C4d, Refusal> {
    Number::TooLong.unless(file.len() <= LIMIT, 0)?;
    Number::Form.unless(head(file), 0)?;
    let mut c4d = C4d::default();
    let (mut highest, mut objects_met) = (None, false);
    let mut at = HEAD;
    while at < file.len() {
        let chunk = piece(file, at, file.len(), chunk_header)?;
        let in_order = match chunk.identifier {
            PLATFORM => at == HEAD,
            MATERIALS => highest.is_none() && !objects_met,
            OBJECTS => !objects_met,
            _ => true,
        };
        Number::Order.unless(in_order, at)?;
        match chunk.identifier {
            MATERIALS => highest = Some(materials(file, &chunk)?),
            OBJECTS => {
                objects_met = true;
                objects::read(file, &chunk, highest, &mut c4d)?;
            }
            _ => (),
        }
        at = chunk.end;
    }
    Ok(c4d)
}

/// Whether the first bytes are right, and their size is the file's less 8.
fn head(file: &[u8]) -> bool {
    let size = (file.len() as u32).wrapping_sub(8).to_be_bytes();
    file.starts_with(&[*b"FORM", size, *b"MC4D"].concat())
}

/// The chunk or sub-chunk at an offset, if it does not pass its parent's end,
/// or 5; what its header says is told by kind.
fn piece<const N: usize>(
    file: &[u8],
    at: usize,
    end: usize,
    header: fn([u8; N]) -> (u32, u32),
) -> Result<Piece, Refusal> {
    let rest = &file[at..end];
    let (identifier, size) = header(*rest.first_chunk().ok_or(Number::Overrun.at(at))?);
    Number::Overrun.unless(size as usize <= rest.len() - N, at)?;
    Ok(Piece {
        identifier,
        at,
        start: at + N,
        end: at + N + size as usize,
    })
}

/// Four letters and a size.
fn chunk_header([a, b, c, d, e, f, g, h]: [u8; 8]) -> (u32, u32) {
    (
        u32::from_be_bytes([a, b, c, d]),
        u32::from_be_bytes([e, f, g, h]),
    )
}

/// A word and a size of 16 bits.
fn material_header([a, b, c, d]: [u8; 4]) -> (u32, u32) {
    (
        u32::from_be_bytes([0, 0, a, b]),
        u32::from_be_bytes([0, 0, c, d]),
    )
}

/// Walks a MAT4; the highest material number, which is the count of MAT_NEXTs.
fn materials(file: &[u8], chunk: &Piece) -> Result<u32, Refusal> {
    let (mut at, mut next, mut ended) = (chunk.start, 0, false);
    while at < chunk.end {
        let inside = piece(file, at, chunk.end, material_header)?;
        Number::Order.unless(!ended, at)?;
        ended = inside.identifier == MAT_END;
        next += u32::from(inside.identifier == MAT_NEXT);
        at = inside.end;
    }
    Number::Order.unless(ended, chunk.at)?;
    Ok(next)
}
