//! Faults put into Cinema 4D figures on purpose: each kind alone, and several
//! together, to see which is answered.

use super::grow::{sub, texture, Chunk, File};
use crate::differ::random::Random;

/// Puts one fault into the file, into a chunk, or among its sub-chunks.
pub fn once(draft: &mut File, kind: u64, random: &mut Random) {
    let count = draft.chunks.len();
    let which = random.below(count.max(1));
    let off = random.pick(&[1, u32::MAX, 4, 256, 1 << 31, 1 << 24]);
    match kind {
        0 => draft.letters[random.below(2)][random.below(4)] ^= 1 << random.below(8),
        1 => draft.size_off = off,
        2 => draft.tail = random.bytes(random.clone().from_to(1, 9)),
        3 if count > 0 => draft.chunks.push(draft.chunks[which].clone()),
        4 if count > 0 => draft.chunks.rotate_left(which),
        5 if count > 0 => draft.chunks[which].size_off = off,
        _ => {
            let parts = [*b"MAT4", *b"OBJ5"];
            let mut chunks = draft.chunks.iter_mut();
            let inside = chunks.rfind(|chunk| parts.contains(&chunk.letters) && random.chance(80));
            inside
                .into_iter()
                .for_each(|chunk| in_chunk(chunk, kind, random));
        }
    }
}

/// Puts a fault among the sub-chunks of a chunk.
fn in_chunk(chunk: &mut Chunk, kind: u64, random: &mut Random) {
    let count = chunk.inside.len();
    let at = random.below(count.max(1));
    if kind == 6 {
        chunk.tail = random.bytes(random.clone().from_to(1, 5));
        return;
    }
    let Some(inside) = chunk.inside.get_mut(at) else {
        return;
    };
    match kind {
        7 => inside.size_off = random.pick(&[1, u32::MAX, 4, 256, 1 << 20]),
        8 => drop(chunk.inside.remove(at)),
        9 => {
            let again = inside.clone();
            chunk.inside.insert(random.below(count + 1), again);
        }
        10 => chunk.inside.swap(at, random.below(count)),
        11 => inside.identifier = random.pick(&[0, 1, 16, 17, 19, 20, 27, 30, 33, 65]),
        12 => {
            let other = sub(16 + random.below(17) as u16, random);
            chunk.inside.insert(at, other);
        }
        13 => chunk.inside.insert(at, texture(Some(5), random)),
        _ => in_texture(chunk, kind, random),
    }
}

/// Gives a texture another size or material.
fn in_texture(chunk: &mut Chunk, kind: u64, random: &mut Random) {
    let mut textures = chunk.inside.iter_mut().filter(|sub| sub.identifier == 23);
    let Some(texture) = textures.nth(random.below(3)) else {
        return;
    };
    let bytes = texture.body.len();
    match kind {
        14 => texture.body.resize(random.pick(&[63, 65, 0, 4]), 0),
        _ => {
            let material: u32 = random.pick(&[0, 1, 2, 4, 5, u32::MAX - 1, 1 << 31, 1 << 24]);
            texture.body.truncate(bytes.saturating_sub(4));
            texture.body.extend(material.to_be_bytes());
        }
    }
}
