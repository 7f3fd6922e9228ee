//! The writer of figures with materials, timed on both sides: two large
//! objects, and many small ones, whose names are compared.

use crate::calls::accepted;
use crate::figures::{corners, vertices};
use crate::measure::{both, Times};
use second::boundary::{Figures, Right, Rows, Second};
use second::LIMIT;
use std::hint::black_box;

/// What is written, and its name in the table.
pub fn all() -> [(&'static str, Rows); 2] {
    [
        ("two objects, materials", rows(2, 18_000, 18_000)),
        ("1,900 objects, materials", rows(1_900, 24, 12)),
    ]
}

/// The size of what is written, and the time that it takes.
pub fn times(rows: &Rows, turns: usize) -> (usize, Times) {
    let right = Right::default();
    let (mut ours, mut theirs) = (vec![0; LIMIT], vec![0; LIMIT]);
    let size = right.write_figure(rows, &mut theirs) as usize;
    let left = || accepted(Second.write_figure(black_box(rows), &mut ours));
    let times = both(turns, left, || {
        accepted(right.write_figure(black_box(rows), &mut theirs))
    });
    (size, times)
}

/// So many objects of n vertices and f faces, all of one material, with a
/// smoothing word a face.
fn rows(count: usize, n: usize, f: usize) -> Rows {
    let name = |object: usize| format!("o{object:04}").into_bytes();
    let (n32, f32) = (3 * n as u32, 3 * f as u32);
    let names = (0..count).flat_map(name).chain(*b"oak");
    let groups = std::iter::repeat_n(*b"oak", count).flatten();
    Rows {
        names: names.chain(groups).collect(),
        objects: [5, n32, f32, f as u32, 1].repeat(count),
        vertices: vertices(n).repeat(count),
        corners: corners(n, f).repeat(count),
        smoothing: vec![1; f * count],
        groups: [3, f as u32].repeat(count),
        faces: (0..f as u16).collect::<Vec<u16>>().repeat(count),
        materials: vec![3],
        colours: vec![120; 9],
    }
}
