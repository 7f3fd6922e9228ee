//! Faults put into Caligari figures on purpose: each kind alone, and several
//! together, to see which is answered.

use super::grow::{Body, Chunk, Face, File, Mesh};
use crate::differ::random::Random;

/// Puts in one fault, at any chunk or at the file's ends.
pub fn once(draft: &mut File, kind: u64, random: &mut Random) {
    let count = draft.chunks.len();
    let which = random.below(count.max(1));
    let others: Vec<u32> = draft.chunks.iter().map(|chunk| chunk.identifier).collect();
    let Some(chunk) = draft.chunks.get_mut(which) else {
        return;
    };
    match kind {
        0 => draft.head[random.below(32)] ^= 1 << random.below(8),
        1 => draft.tail = random.bytes(which + 1),
        2 => drop(draft.chunks.pop()),
        3 => draft.chunks.swap(which, count - 1),
        4 => chunk.identifier = random.pick(&[0, random_of(&others, which)]),
        5 => chunk.parent = random.pick(&[1, chunk.identifier, *others.last().unwrap_or(&1)]),
        6 => chunk.stated = Some(size(chunk, random.below(9))),
        7 => chunk.version[random.below(2)] ^= 1 << random.below(3),
        8 => chunk.letters[random.below(4)] ^= 0x20,
        9 => stretch(&mut chunk.body, random),
        _ => draft
            .meshes()
            .into_iter()
            .take(2)
            .for_each(|mesh| in_mesh(mesh, kind, random)),
    }
}

/// Another chunk's identifier.
fn random_of(others: &[u32], which: usize) -> u32 {
    others[(which + 1) % others.len()]
}

/// A size that is stated wrongly, or openly.
fn size(chunk: &Chunk, which: usize) -> i32 {
    let true_size = chunk.bytes().len() as i32 - 20;
    [
        -1,
        -1,
        -2,
        i32::MIN,
        0,
        true_size + 1,
        true_size - 1,
        true_size + 20,
        i32::MAX,
    ][which]
}

/// Makes a body of bytes shorter, longer, or another in one byte.
fn stretch(body: &mut Body, random: &mut Random) {
    let Body::Bytes(bytes) = body else { return };
    match random.below(3) {
        0 => bytes.truncate(random.below(bytes.len() + 1)),
        1 => bytes.extend(random.bytes(1)),
        _ => {
            let at = random.below(bytes.len().max(1));
            let byte = random.pick(&[0x80, 0xFF, 0, 1]);
            bytes
                .iter_mut()
                .skip(at)
                .take(1)
                .for_each(|slot| *slot = byte);
        }
    }
}

impl File {
    /// The meshes of the file.
    fn meshes(&mut self) -> Vec<&mut Mesh> {
        let bodies = self.chunks.iter_mut().map(|chunk| &mut chunk.body);
        let meshes = bodies.filter_map(|body| match body {
            Body::Mesh(mesh) => Some(mesh),
            Body::Bytes(_) => None,
        });
        meshes.collect()
    }
}

/// Puts a fault into a mesh.
fn in_mesh(mesh: &mut Mesh, kind: u64, random: &mut Random) {
    let bad = random.pick(&[0x7F80_0000, 0xFF80_0000, 0x7FC0_0000, 0xFFFF_FFFF]);
    let off = random.pick(&[1, u32::MAX, 1 << 31, 1 << 16]);
    let one = |row: &mut Vec<u32>, random: &mut Random| {
        let at = random.below(row.len().max(1));
        row.iter_mut()
            .skip(at)
            .take(1)
            .for_each(|float| *float = bad);
    };
    match kind {
        10 => one(&mut mesh.vertices, random),
        11 => one(&mut mesh.textures, random),
        12 => mesh.counts_off[random.below(3)] = off,
        13 => mesh.placed[random.below(4)] = random.pick(&[0x80, 1, 0xFF]),
        14 => mesh
            .faces
            .iter_mut()
            .take(1)
            .for_each(|face| face.flags |= 8),
        _ => {
            let counts = [
                mesh.vertices.len() as u32 / 3,
                mesh.textures.len() as u32 / 2,
            ];
            let at = random.below(mesh.faces.len().max(1));
            mesh.faces
                .iter_mut()
                .skip(at)
                .take(1)
                .for_each(|face| in_face(face, counts, random));
        }
    }
}

/// Puts a fault into a face: an index too high or too low, or its count.
fn in_face(face: &mut Face, counts: [u32; 2], random: &mut Random) {
    let (which, at) = (random.below(2), random.below(face.corners.len().max(1)));
    let bad = random.pick(&[counts[which], u32::MAX, 1 << 31, counts[which] + 1]);
    match random.below(4) {
        0 => face.count_off = random.pick(&[1, 0xFFFF, 0x8000]),
        _ => face
            .corners
            .iter_mut()
            .skip(at)
            .take(1)
            .for_each(|pair| pair[which] = bad),
    }
}
