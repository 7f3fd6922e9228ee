//! The boundary to C: calls on numbers and slices, each of which answers one
//! 64-bit number; this library behind it, and the one under test. Here are the
//! calls over figures, and what all calls share.

mod c4ds;
mod cobs;
mod figures;
mod slips;
mod sticks;
mod sums;

pub(crate) use c4ds::c4d_list_of;
pub use c4ds::{C4ds, OBJECT_BYTES};
pub(crate) use cobs::{cob_list_of, cob_meshes_of, cob_sizes_of, cob_tables_of};
pub use cobs::{Cobs, COB_MESH_BYTES, COB_RECORD_BYTES};
pub use figures::{Figures, Rows};
pub use slips::{Slips, ENTRY_BYTES};
pub use sticks::Sticks;
pub(crate) use sticks::{numbers_of, set};
pub use sums::Summing;

use crate::{
    bounding_box, boxes, check, list, mapping, meshes, name, parts, rescue, tables, write,
};
use crate::{BoundingBox, Cut, MeshPlaces, Number, Refusal, RECORD};

/// The bytes of one record on the boundary.
pub const RECORD_BYTES: usize = 4 * RECORD;

/// The bytes of one part on the boundary.
pub const PART_BYTES: usize = 8;

/// The bytes of one mesh's places on the boundary.
pub const PLACES_BYTES: usize = 32;

/// The bytes of one box on the boundary.
pub const BOX_BYTES: usize = 36;

/// The bytes of one cut on the boundary.
pub const CUT_BYTES: usize = 12;

/// One record of the list as a struct, as C lays it out.
#[repr(C)]
#[derive(Clone, Copy, Debug, Default, PartialEq, Eq)]
pub struct Chunk {
    pub identifier: u32,
    pub offset: u32,
    pub length: u32,
    pub depth: u32,
    pub parent: u32,
    pub own: u32,
    /// The next record that is not inside it.
    pub next: u32,
}

impl From<[u32; RECORD]> for Chunk {
    /// The numbers in the list's order.
    fn from(numbers: [u32; RECORD]) -> Chunk {
        let [identifier, offset, length, depth, parent, own, next] = numbers;
        Chunk {
            identifier,
            offset,
            length,
            depth,
            parent,
            own,
            next,
        }
    }
}

impl From<Chunk> for [u32; RECORD] {
    /// The numbers in the list's order.
    fn from(chunk: Chunk) -> [u32; RECORD] {
        [
            chunk.identifier,
            chunk.offset,
            chunk.length,
            chunk.depth,
            chunk.parent,
            chunk.own,
            chunk.next,
        ]
    }
}

/// The calls over figures.
pub trait Boundary {
    /// The count of records.
    fn check(&self, file: &[u8]) -> u64;
    /// The count of records, now in the slice.
    fn list(&self, file: &[u8], records: &mut [u8]) -> u64;
    /// The count of records, now in the table, and their numbers in the row.
    fn records(&self, file: &[u8], row: &mut [u32], table: &mut [Chunk]) -> u64;
    /// Vertices plus 65,536 times faces, now in the slices.
    fn tables(&self, file: &[u8], mesh: u32, vertices: &mut [u8], corners: &mut [u8]) -> u64;
    /// 3: headers, own data, skipped.
    fn counts(&self, file: &[u8], counts: &mut [u8]) -> u64;
    /// 2: offset and length.
    fn name(&self, file: &[u8], mesh: u32, span: &mut [u8]) -> u64;
    /// 9: low, high, centre.
    fn bounding_box(&self, file: &[u8], mesh: u32, floats: &mut [u8]) -> u64;
    /// The size of the figure, now in the slice.
    fn write(&self, name: &[u8], vertices: &[f32], corners: &[u16], out: &mut [u8]) -> u64;
    /// The count of mapping numbers, now in the slice.
    fn mapping(&self, file: &[u8], mesh: u32, numbers: &mut [u8]) -> u64;
    /// The count of parts, their fathers and depths now in the slice.
    fn parts(&self, file: &[u8], numbers: &mut [u8]) -> u64;
    /// The count of meshes, where they stand now in the slice.
    fn meshes(&self, file: &[u8], numbers: &mut [u8]) -> u64;
    /// The count of meshes, their boxes and centres now in the slice.
    fn boxes(&self, file: &[u8], floats: &mut [u8]) -> u64;
    /// The count of cuts, now in the slice, and the mended figure in the other.
    fn rescue(&self, file: &[u8], cuts: &mut [u8], out: &mut [u8]) -> u64;
}

/// A refusal as the boundary answers it; a place too wide is capped.
pub fn refused(number: u32, place: usize) -> u64 {
    (u64::from(number) << 32) + u64::from(u32::try_from(place).unwrap_or(u32::MAX))
}

/// The number and place of an answer that is a refusal.
pub fn refusal(answer: u64) -> Option<(u32, u32)> {
    let number = (answer >> 32) as u32;
    (number != 0).then_some((number, answer as u32))
}

/// This library, in the boundary's manner.
#[derive(Clone, Copy, Debug, Default)]
pub struct Second;

impl Boundary for Second {
    fn check(&self, file: &[u8]) -> u64 {
        answer(check(file).map(|counts| counts.records))
    }

    fn list(&self, file: &[u8], records: &mut [u8]) -> u64 {
        let whole = records.len() / RECORD_BYTES * RECORD_BYTES;
        let mut row: Vec<u32> = numbers(&records[..whole]);
        let listed = list(file, &mut row);
        if listed.is_ok() {
            put(records, row.iter().map(|number| number.to_le_bytes()));
        }
        answer(listed.map(|counts| counts.records))
    }

    fn records(&self, file: &[u8], row: &mut [u32], table: &mut [Chunk]) -> u64 {
        let room = table.len().min(row.len() / RECORD);
        let listed = list(file, &mut row[..RECORD * room]);
        if let Ok(counts) = &listed {
            let records = row.as_chunks().0[..counts.records].iter();
            for (slot, record) in table.iter_mut().zip(records) {
                *slot = Chunk::from(*record);
            }
        }
        answer(listed.map(|counts| counts.records))
    }

    fn tables(&self, file: &[u8], mesh: u32, vertices: &mut [u8], corners: &mut [u8]) -> u64 {
        let mut floats = floats(vertices);
        let words = corners.as_chunks().0.iter();
        let mut words: Vec<u16> = words.map(|word| u16::from_le_bytes(*word)).collect();
        let filled = tables(file, mesh, &mut floats, &mut words);
        if filled.is_ok() {
            put(vertices, floats.iter().map(|float| float.to_le_bytes()));
            put(corners, words.iter().map(|word| word.to_le_bytes()));
        }
        answer(filled.map(|(n, f)| n + 65_536 * f))
    }

    fn counts(&self, file: &[u8], counts: &mut [u8]) -> u64 {
        let counted = check(file);
        let three = counted.map(|count| [count.headers, count.own, count.skipped]);
        few(three.map(|three| three.map(|count| count as u32)), counts)
    }

    fn name(&self, file: &[u8], mesh: u32, span: &mut [u8]) -> u64 {
        let two = name(file, mesh).map(|(offset, length)| [offset as u32, length as u32]);
        few(two, span)
    }

    fn bounding_box(&self, file: &[u8], mesh: u32, floats: &mut [u8]) -> u64 {
        few(bounding_box(file, mesh).map(nine), floats)
    }

    fn write(&self, name: &[u8], vertices: &[f32], corners: &[u16], out: &mut [u8]) -> u64 {
        answer(write(name, vertices, corners, out))
    }

    fn mapping(&self, file: &[u8], mesh: u32, numbers: &mut [u8]) -> u64 {
        let mut row = floats(numbers);
        let filled = mapping(file, mesh, &mut row);
        if filled.is_ok() {
            put(numbers, row.iter().map(|float| float.to_le_bytes()));
        }
        answer(filled)
    }

    fn parts(&self, file: &[u8], numbers: &mut [u8]) -> u64 {
        let all = parts(file);
        let each = all.map(|all| {
            all.iter()
                .map(|part| [part.father.into(), part.depth])
                .collect()
        });
        many(each, numbers)
    }

    fn meshes(&self, file: &[u8], numbers: &mut [u8]) -> u64 {
        let all = meshes(file);
        let each = all.map(|all| all.iter().map(eight).collect());
        many(each, numbers)
    }

    fn boxes(&self, file: &[u8], floats: &mut [u8]) -> u64 {
        let each = |all: Vec<Option<BoundingBox>>| {
            let all = all.into_iter();
            all.map(|found| found.map_or([0; 9], nine)).collect()
        };
        many(boxes(file).map(each), floats)
    }

    fn rescue(&self, file: &[u8], cuts: &mut [u8], out: &mut [u8]) -> u64 {
        let rescued = rescue(file).and_then(|rescued| {
            let (count, size) = (rescued.cuts.len(), rescued.figure.len());
            Number::NoRoom.unless(count <= cuts.len() / CUT_BYTES, count)?;
            Number::NoRoom.unless(size <= out.len(), size)?;
            out[..size].copy_from_slice(&rescued.figure);
            Ok(rescued.cuts)
        });
        let three = |cut: &Cut| [cut.offset as u32, cut.number, cut.bytes as u32];
        many(rescued.map(|all| all.iter().map(three).collect()), cuts)
    }
}

/// The nine numbers of a box.
fn nine(found: BoundingBox) -> [u32; 9] {
    let corners = [found.low, found.high, found.centre];
    let mut nine = [0; 9];
    for (slot, float) in nine.iter_mut().zip(corners.as_flattened()) {
        *slot = float.to_bits();
    }
    nine
}

/// The eight numbers of a mesh.
fn eight(mesh: &MeshPlaces) -> [u32; 8] {
    let MeshPlaces {
        name,
        vertices,
        faces,
        mapping,
    } = *mesh;
    let pairs = [name, vertices, faces, mapping].map(|(a, b)| [a as u32, b as u32]);
    let mut numbers = [0; 8];
    numbers.copy_from_slice(pairs.as_flattened());
    numbers
}

/// The answer of a call: what it counts to, or its refusal.
pub(crate) fn answer(result: Result<usize, Refusal>) -> u64 {
    match result {
        Ok(count) => count as u64,
        Err(Refusal { number, place }) => refused(number, place),
    }
}

/// The whole numbers in a slice.
fn numbers(bytes: &[u8]) -> Vec<u32> {
    let whole = bytes.as_chunks().0.iter();
    whole.map(|number| u32::from_le_bytes(*number)).collect()
}

/// The whole floats in a slice.
fn floats(bytes: &[u8]) -> Vec<f32> {
    numbers(bytes).into_iter().map(f32::from_bits).collect()
}

/// Puts numbers into a slice, as many as there are.
fn put<const N: usize>(bytes: &mut [u8], numbers: impl Iterator<Item = [u8; N]>) {
    for (slot, number) in bytes.as_chunks_mut().0.iter_mut().zip(numbers) {
        *slot = number;
    }
}

/// The answer of a call that fills a few numbers, whose room is judged last.
fn few<const N: usize>(result: Result<[u32; N], Refusal>, bytes: &mut [u8]) -> u64 {
    let filled = result.and_then(|numbers| {
        Number::NoRoom.unless(bytes.len() / 4 >= N, N)?;
        put(bytes, numbers.iter().map(|number| number.to_le_bytes()));
        Ok(N)
    });
    answer(filled)
}

/// The answer of a call that fills so many numbers for each of many, whose room
/// is counted in wholes and judged last.
fn many<const N: usize>(result: Result<Vec<[u32; N]>, Refusal>, bytes: &mut [u8]) -> u64 {
    let filled = result.and_then(|all| {
        let fits = all.len() <= bytes.len() / (4 * N);
        Number::NoRoom.unless(fits, all.len())?;
        let numbers = all.as_flattened().iter();
        put(bytes, numbers.map(|number| number.to_le_bytes()));
        Ok(all.len())
    });
    answer(filled)
}

#[cfg(feature = "tds")]
pub use linked::Tds;

#[cfg(feature = "tds")]
mod linked;

/// The right-hand side of every comparison: the library under test where it
/// is linked, else this library again, to try the comparison itself.
#[cfg(feature = "tds")]
pub type Right = Tds;
#[cfg(not(feature = "tds"))]
pub type Right = Second;

/// Whether the right-hand side is the library under test.
pub const LINKED: bool = cfg!(feature = "tds");
