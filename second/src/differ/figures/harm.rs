//! Faults put into figures that are to be written: each refusal of the writer,
//! and rows that are not as long as they are said to be.

use super::grow::{Draft, Object};
use crate::boundary::Rows;
use crate::differ::names;
use crate::differ::random::Random;

/// How many kinds of fault there are.
pub const KINDS: u64 = 14;

/// How many rows can be of another length.
pub const ROWS: u64 = 9;

/// Puts in one fault, where there is something to put it into.
pub fn once(draft: &mut Draft, kind: u64, random: &mut Random) {
    let (objects, materials) = (draft.objects.len(), draft.materials.len());
    let (one, other) = (random.below(objects.max(1)), random.below(materials.max(1)));
    match kind {
        0 => draft
            .materials
            .iter_mut()
            .skip(other)
            .take(1)
            .for_each(|m| zero(&mut m.0, random)),
        1 if objects > 0 => {
            let name = draft.objects[random.below(objects)].name.clone();
            draft.objects[one].name = name;
        }
        2 if materials > 0 => {
            let again = draft.materials[other].clone();
            draft.materials.push(again);
        }
        3 => draft.materials.truncate(other),
        12 if materials > 0 => names::spoil(&mut draft.materials[other].0, random),
        13 if objects > 0 => names::spoil(&mut draft.objects[one].name, random),
        _ => {
            let object = draft.objects.iter_mut().skip(one).take(1);
            object.for_each(|object| in_object(object, kind, random));
        }
    }
}

/// Puts a fault into an object.
fn in_object(object: &mut Object, kind: u64, random: &mut Random) {
    let n = object.vertices.len() as u16 / 3;
    let f = object.corners.len() as u16 / 3;
    let bad = random.pick(&[f32::NAN, -f32::NAN, f32::INFINITY, f32::NEG_INFINITY]);
    let high = random.pick(&[0, 0, 1, 9]);
    match kind {
        4 => zero(&mut object.name, random),
        5 => object
            .vertices
            .truncate(random.below(object.vertices.len() + 1)),
        6 => object
            .corners
            .truncate(random.below(object.corners.len() + 1)),
        7 => {
            // one word too few, as many as faces, one or two too many
            let words = usize::from(f) + random.below(4);
            object.smoothing.resize(words.saturating_sub(1), 5);
        }
        8 => one_of(&mut object.vertices, bad, random),
        9 => one_of(&mut object.corners, n + high, random),
        _ => {
            let which = random.below(object.groups.len().max(1));
            let group = object.groups.iter_mut().skip(which).take(1);
            group.for_each(|(name, faces)| match kind {
                10 => one_of(faces, f + high, random),
                _ => name.push(b'x'),
            });
        }
    }
}

/// Makes one of a row another.
fn one_of<T: Copy>(row: &mut [T], value: T, random: &mut Random) {
    let at = random.below(row.len().max(1));
    row.iter_mut()
        .skip(at)
        .take(1)
        .for_each(|slot| *slot = value);
}

/// Puts a zero into a name.
fn zero(name: &mut Vec<u8>, random: &mut Random) {
    let at = random.below(name.len() + 1);
    name.insert(at, 0);
}

/// Makes a row longer or shorter.
pub fn misfit(rows: &mut Rows, row: u64, random: &mut Random) {
    let by = random.pick(&[-1, 1, 2, 5, -3]);
    match row {
        0 => another_length(&mut rows.names, by),
        1 => another_length(&mut rows.objects, by),
        2 => another_length(&mut rows.vertices, by),
        3 => another_length(&mut rows.corners, by),
        4 => another_length(&mut rows.smoothing, by),
        5 => another_length(&mut rows.groups, by),
        6 => another_length(&mut rows.faces, by),
        7 => another_length(&mut rows.materials, by),
        _ => another_length(&mut rows.colours, by),
    }
}

fn another_length<T: Copy + Default>(row: &mut Vec<T>, by: isize) {
    let length = row.len().saturating_add_signed(by);
    row.resize(length, T::default());
}
